" Two-level grammars in the language of twolc, as docs/FORMATS.md tells them.
if exists('b:current_syntax')
  finish
endif

syn match twolcOperator /[][()|&~\\$*+^\/;_=?:-]/
syn match twolcArrow /<=>\|\/<=\|<=\|=>/
syn match twolcEdge /\.#\./
syn match twolcZero /\%(^\|[^%[:alnum:]^]\)\@1<=0\ze\%([^%[:alnum:]]\|$\)/
syn match twolcEscape /%./
syn region twolcRule start=/"/ end=/"/ oneline contains=@Spell
syn keyword twolcSection Alphabet Sets Definitions Rules
" what hfst-twolc has and this program hasn't: these are symbols here
syn keyword twolcMissing Diacritics where matched mixed freely except
syn match twolcComment /%\@1<!!.*/ contains=@Spell
" tests of the rules, for ./expect
syn match twolcTest /^\s*!!\%(€\|\$\).*/

hi def link twolcSection Statement
hi def link twolcRule Title
hi def link twolcArrow Type
hi def link twolcOperator Operator
hi def link twolcEdge Special
hi def link twolcZero Special
hi def link twolcEscape SpecialChar
hi def link twolcMissing Error
hi def link twolcComment Comment
hi def link twolcTest PreProc

let b:current_syntax = 'twolc'
