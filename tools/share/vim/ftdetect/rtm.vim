" Decks and traces of rtmrun, by the endings of their files.
autocmd BufRead,BufNewFile *.deck setfiletype rtmdeck
autocmd BufRead,BufNewFile *.trace if getline(1) =~# '^RTMTRACE ' | setfiletype rtmtrace | endif
