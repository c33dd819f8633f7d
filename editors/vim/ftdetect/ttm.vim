autocmd BufRead,BufNewFile *.ttm setfiletype ttm
