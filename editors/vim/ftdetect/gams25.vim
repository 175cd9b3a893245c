autocmd BufNewFile,BufRead *.gms setfiletype gams25
