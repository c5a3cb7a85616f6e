" The type of ASL1 files.
" Written by tools/editors/generate.py from the definitions of the lexemes and from the table of the grammar.
autocmd BufRead,BufNewFile *.asl set filetype=asl
