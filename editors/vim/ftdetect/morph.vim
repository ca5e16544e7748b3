" Sources of a morph project, by their names; a project's manifest is the file `project`.
au BufRead,BufNewFile *.xfst setfiletype xfst
au BufRead,BufNewFile *.lexc setfiletype lexc
au BufRead,BufNewFile *.twolc setfiletype twolc
au BufRead,BufNewFile project setfiletype morphproject
