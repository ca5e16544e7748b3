" `:make` checks the project in the folder of the file: with ./morph where it is built, else with ./try.
if exists('current_compiler')
  finish
endif
let current_compiler = 'morph'
let s:root = expand('<sfile>:p:h:h:h:h')
let &l:makeprg = '(cd %:p:h:S && echo "in $PWD" && ' . escape(shellescape(s:root . '/editors/check'), '%#') . ' .)'
setlocal errorformat=%Din\ %f,refused\ %f\ %l\ %m,warning\ %f\ %l\ %m,%-G%.%#
