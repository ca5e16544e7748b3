" The manifest of a morph project, as docs/FORMATS.md tells it.
if exists('b:current_syntax')
  finish
endif

syn match morphprojectFault /^\s*\S\+/
syn match morphprojectKeyword /^\s*\%(xfst\|lexc\|twolc\|alphabet\|require\|gloss\)\ze\%(\s\|$\)/ nextgroup=morphprojectName
syn match morphprojectEscape /%./
syn match morphprojectName /\%(^\s*\%(lexc\|twolc\)\)\@40<=\s\+\S\+/ contained
syn match morphprojectComment /^\s*!.*/ contains=@Spell

hi def link morphprojectKeyword Statement
hi def link morphprojectName Identifier
hi def link morphprojectEscape SpecialChar
hi def link morphprojectFault Error
hi def link morphprojectComment Comment

let b:current_syntax = 'morphproject'
