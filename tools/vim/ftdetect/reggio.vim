autocmd BufRead,BufNewFile *.rg setfiletype reggio
