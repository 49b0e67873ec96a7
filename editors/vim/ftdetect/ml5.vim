" Which files are ml5 programs, scripts and traces. Others use the endings of the last two as well, so their first lines
" decide.
autocmd BufRead,BufNewFile *.ml5 setfiletype ml5
autocmd BufRead *.script if join(getline(1, 20), "\n") =~# '\v(^|\n)\s*(sessions|steps|region|store|event|raw|order)\s' | setfiletype ml5script | endif
autocmd BufRead *.trace if getline(1) =~# '\v^([1-9]\d* (home|server|panel) |rest$)' | setfiletype ml5trace | endif
