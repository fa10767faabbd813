" Vim takes .mg for Modula-3, so the type is set and not only proposed.
autocmd BufNewFile,BufRead *.mg set filetype=xmgeni
