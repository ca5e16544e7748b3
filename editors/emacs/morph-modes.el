;;; morph-modes.el --- modes for the sources of a morph project  -*- lexical-binding: t -*-

;; To use it, in the init file:  (load "/path/to/editors/emacs/morph-modes.el")
;; The languages are those that docs/FORMATS.md tells. `M-x compile' checks the project in the file's folder, and `next-error'
;; jumps to its first fault; `M-x morph-lint' has it warn.

;;; Code:

(require 'compile)

(defconst morph-folder
  (expand-file-name "../.." (file-name-directory (file-truename (or load-file-name buffer-file-name))))
  "The folder in which the program's scripts stand.")

(defun morph--syntax (comments)
  "A syntax table in which each character of COMMENTS begins a comment, and % takes the next character as it is."
  (let ((table (make-syntax-table)))
    (dolist (it (append comments nil))
      (modify-syntax-entry it "<" table))
    (modify-syntax-entry ?\n ">" table)
    (modify-syntax-entry ?% "\\" table)
    (modify-syntax-entry ?\\ "." table)
    (dolist (it (append "&*+-/<=>|_^~$@" nil))
      (modify-syntax-entry it "." table))
    table))

(defconst morph--flag
  "@\\(?:[PNU]\\.[^.@ \t\n]+\\.[^.@ \t\n]+\\|C\\.[^.@ \t\n]+\\|[RD]\\.[^.@ \t\n]+\\(?:\\.[^.@ \t\n]+\\)?\\)@")

(defun morph--prepare (keywords)
  "Sets the buffer up with KEYWORDS to show."
  (setq-local comment-start "! " comment-start-skip "!+ *" comment-end "")
  (setq-local font-lock-defaults (list keywords))
  (setq-local syntax-propertize-function
              (syntax-propertize-rules ("\\.\\(#\\)\\." (1 "."))))
  (setq-local compile-command
              (concat (shell-quote-argument (expand-file-name "editors/check" morph-folder)) " .")))

;;;###autoload
(define-derived-mode morph-xfst-mode prog-mode "xfst"
  "Definitions in the language of xfst expressions."
  :syntax-table (morph--syntax "!#")
  (morph--prepare
   '(("(@->)\\|(@>)\\|(->@)\\|(>@)\\|<-\\|\\^{[^}\n]*}\\|\\.[pP]\\.\\|\\$[.?]\\|\\./\\." . font-lock-warning-face)
     ("\\_<\\(define\\)[ \t\n]+\\([^][(){}|/\\&~$*+^:;,?_.<>=!#@\"% \t\n-]+\\)"
      (1 font-lock-keyword-face) (2 font-lock-variable-name-face))
     ("{\\(?:%.\\|[^}%\n]\\)*}" 0 font-lock-string-face t)
     ("\\.#\\.\\|(->)\\|@->\\|->@\\|@>\\|>@\\|->\\|=>\\|||\\|//\\|\\\\\\\\\\|\\\\/\\|,,\\|\\.\\.\\.\\|\\.[xo]\\.\\|\\.[ulir]\\_>" . font-lock-builtin-face))))

;;;###autoload
(define-derived-mode morph-lexc-mode prog-mode "lexc"
  "Lexicons in the language of lexc."
  :syntax-table (let ((table (morph--syntax "!")))
                  (modify-syntax-entry ?\" "." table)
                  table)
  (morph--prepare
   `(("^[ \t]*\\(Multichar_Symbols\\|END\\)\\_>" 1 font-lock-keyword-face)
     ("^[ \t]*\\(LEXICON\\)[ \t]+\\([^;! \t\n]+\\)" (1 font-lock-keyword-face) (2 font-lock-function-name-face))
     (,morph--flag . font-lock-preprocessor-face)
     ("@N\\.[^@ \t\n]*@" . font-lock-warning-face)
     ("\\(?:^\\|;\\)[ \t]*\\(<\\(?:%.\\|\"[^\"\n]*\"\\|[^>\"%\n]\\)*>\\)" 1 font-lock-string-face)
     ("\\([^;! \t\n]+\\)[ \t]*;" 1 font-lock-type-face))))

;;;###autoload
(define-derived-mode morph-twolc-mode prog-mode "twolc"
  "Two-level grammars in the language of twolc."
  :syntax-table (morph--syntax "!")
  (morph--prepare
   '(("\\_<\\(Alphabet\\|Sets\\|Definitions\\|Rules\\)\\_>" 1 font-lock-keyword-face)
     ("\\_<\\(Diacritics\\|where\\|matched\\|mixed\\|freely\\|except\\)\\_>" 1 font-lock-warning-face)
     ("^[ \t]*\\([^][(){}|/\\&~$*+^:;,?_.<>=!#@\"% \t\n-]+\\)[ \t]*=[^>]" 1 font-lock-variable-name-face)
     ("<=>\\|/<=\\|<=\\|=>\\|\\.#\\." . font-lock-builtin-face))))

;;;###autoload
(define-derived-mode morph-project-mode prog-mode "morph project"
  "The manifest of a project."
  :syntax-table (morph--syntax "")
  (morph--prepare
   '(("^[ \t]*!.*" . font-lock-comment-face)
     ("^[ \t]*\\(lexc\\|twolc\\)[ \t]+\\([^ \t\n]+\\)" (1 font-lock-keyword-face) (2 font-lock-variable-name-face))
     ("^[ \t]*\\(xfst\\|alphabet\\|require\\|gloss\\)\\_>" 1 font-lock-keyword-face))))

;;;###autoload
(dolist (it '(("\\.xfst\\'" . morph-xfst-mode) ("\\.lexc\\'" . morph-lexc-mode)
              ("\\.twolc\\'" . morph-twolc-mode) ("/project\\'" . morph-project-mode)))
  (add-to-list 'auto-mode-alist it))

(add-to-list 'compilation-error-regexp-alist-alist
             '(morph "^\\(?:refused\\|\\(warning\\)\\|\\(hint\\)\\) \\([^ \n]+\\) \\([0-9]+\\) " 3 4 nil (1 . 2)))
(add-to-list 'compilation-error-regexp-alist 'morph)

(defun morph-lint ()
  "Warns of what the sources of the project in this folder may not mean."
  (interactive)
  (compile (concat (shell-quote-argument (expand-file-name "lint" morph-folder)) " .")))

(provide 'morph-modes)
;;; morph-modes.el ends here
