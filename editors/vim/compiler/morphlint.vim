" `:make` warns of what the sources of the project in the folder of the file may not mean.
if exists('current_compiler')
  finish
endif
let current_compiler = 'morphlint'
let s:root = expand('<sfile>:p:h:h:h:h')
let &l:makeprg = '(cd %:p:h:S && echo "in $PWD" && ' . escape(shellescape(s:root . '/lint'), '%#') . ' .)'
setlocal errorformat=%Din\ %f,refused\ %f\ %l\ %m,warning\ %f\ %l\ %m,hint\ %f\ %l\ %m,%-G%.%#
