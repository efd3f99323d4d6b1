" Scripts of credtrace and their reports.
autocmd BufNewFile,BufRead *.trace setfiletype credtrace
autocmd BufNewFile,BufRead *.report setfiletype credtrace
