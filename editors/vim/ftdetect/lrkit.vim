autocmd BufNewFile,BufRead *.y set filetype=lrkit
