" `:make` checks the project in the file's folder and jumps to its first fault; `:compiler morphlint` has it warn.
if exists('b:did_ftplugin')
  finish
endif
let b:did_ftplugin = 1
setlocal comments=:! commentstring=!\ %s
compiler morph
let b:undo_ftplugin = 'setlocal comments< commentstring< makeprg< errorformat<'
