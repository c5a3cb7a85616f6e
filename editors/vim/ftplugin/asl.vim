" Comments, and `:make`, which checks the file and lists its fault.
" Written by tools/editors/generate.py from the definitions of the lexemes and from the table of the grammar.
if exists('b:did_ftplugin')
  finish
endif
let b:did_ftplugin = 1

setlocal comments=s1:/*,mb:*,ex:*/,://
setlocal commentstring=//\ %s
setlocal makeprg=asl\ check\ %:S
setlocal errorformat=%f:%l:%c+%*\\d:\ %m
let b:undo_ftplugin = 'setlocal comments< commentstring< makeprg< errorformat<'
