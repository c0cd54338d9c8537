" Definitions and proofs. The symbols are on in insert mode, and Ctrl-^ turns them off
setlocal commentstring=--\ %s comments=:--
setlocal expandtab shiftwidth=2 softtabstop=2 autoindent
setlocal iskeyword=@,48-57,_,-,',192-255
setlocal keymap=rattle
