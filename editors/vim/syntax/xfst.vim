" Definitions in the language of xfst expressions, as docs/FORMATS.md tells them.
if exists('b:current_syntax')
  finish
endif

syn match xfstOperator /[][()|\/\\&~$*+^:;,?_-]/
syn match xfstOperator /(->)\|@->\|->@\|@>\|>@\|->\|=>\|||\|\/\/\|\\\\\|\\\/\|,,\|\.\.\.\|\.[xo]\.\|\.[ulir]\>/
syn match xfstOperator /\[\.\.\]\|\[\.\_s\+\.\]/
" a run of characters: a name or a symbol
syn match xfstRun /\%(%.\|[^][(){}|\/\\&~$*+^:;,?_.<>=!#@"% \t-]\)\+/ contains=xfstEscape
syn match xfstEscape /%./ contained
syn match xfstEmpty /\%(^\|[^%[:alnum:]^]\)\@1<=0\ze\%([^%[:alnum:]]\|$\)/
syn match xfstPower /\^\d\+/
syn region xfstString start=/"/ end=/"/ oneline
syn region xfstBraces start=/{/ skip=/%./ end=/}/ oneline contains=xfstEscape
syn match xfstDefine /\<define\s\+[^][(){}|\/\\&~$*+^:;,?_.<>=!#@"% \t-]\+/ contains=xfstKeyword
syn keyword xfstKeyword define contained
syn match xfstComment /[!#].*/ contains=@Spell
syn match xfstEdge /\.#\./
" what xfst has and this program hasn't
syn match xfstMissing /(@->)\|(@>)\|(->@)\|(>@)\|<-\|\^{[^}]*}\|\.[pP]\.\|\$[.?]\|\.\/\./

hi def link xfstKeyword Statement
hi def link xfstDefine Identifier
hi def link xfstOperator Operator
hi def link xfstString String
hi def link xfstBraces String
hi def link xfstEscape SpecialChar
hi def link xfstEmpty Special
hi def link xfstPower Number
hi def link xfstEdge Special
hi def link xfstComment Comment
hi def link xfstMissing Error

let b:current_syntax = 'xfst'
