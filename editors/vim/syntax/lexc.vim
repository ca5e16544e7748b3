" Lexicons in the language of lexc, as docs/FORMATS.md tells them.
if exists('b:current_syntax')
  finish
endif

syn match lexcEscape /%./
" where an entry goes on: the last word before its semicolon
syn match lexcNext /\%(%.\|[^%;! \t]\)\+\ze\s*;/ contains=lexcEscape
syn match lexcEnd /\%(%\)\@1<!#\ze\s*;/
syn match lexcSign /[:;]/
syn match lexcZero /%\@1<!0/ contained
syn match lexcFlag /@[PNU]\.[^.@ \t]\+\.[^.@ \t]\+@\|@C\.[^.@ \t]\+@\|@[RD]\.[^.@ \t]\+\%(\.[^.@ \t]\+\)\?@/
" a text like a flag that is none
syn match lexcNoFlag /@N\.[^@ \t]*@/
syn region lexcExpression start=/\%(^\|;\)\s*\zs</ skip=/%.\|"[^"]*"/ end=/>/ contains=lexcString,lexcEscape
syn match lexcString /"[^"]*"/ contained
syn match lexcKeyword /^\s*\zs\%(Multichar_Symbols\|END\)\>/
syn match lexcLexicon /^\s*\zsLEXICON\s\+\%(%.\|[^%;! \t]\)\+/ contains=lexcWord
syn keyword lexcWord LEXICON contained
syn match lexcComment /%\@1<!!.*/ contains=@Spell

hi def link lexcKeyword Statement
hi def link lexcWord Statement
hi def link lexcLexicon Identifier
hi def link lexcNext Type
hi def link lexcEnd Special
hi def link lexcSign Operator
hi def link lexcFlag PreProc
hi def link lexcNoFlag Error
hi def link lexcExpression String
hi def link lexcString String
hi def link lexcEscape SpecialChar
hi def link lexcComment Comment

let b:current_syntax = 'lexc'
