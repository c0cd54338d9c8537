" Rattle: Rust with contracts. Ctrl-^ in insert mode turns the symbols of contracts on and off
setlocal commentstring=//\ %s comments=s1:/*,mb:*,ex:*/,:///,://!,://
setlocal expandtab shiftwidth=4 softtabstop=4 autoindent smartindent
setlocal keymap=rattle iminsert=0
