" Files of the language dbp, by their names.
autocmd BufNewFile,BufRead *.dbp setfiletype dbp
