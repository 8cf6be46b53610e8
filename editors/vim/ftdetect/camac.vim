" Scripts of camac.
autocmd BufRead,BufNewFile *.script,*.camac setfiletype camac
