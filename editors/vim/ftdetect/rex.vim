autocmd BufRead,BufNewFile *.service,*.scenario setfiletype rex
