autocmd BufRead,BufNewFile *.priml setfiletype priml
