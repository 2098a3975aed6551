" A file whose name ends with .asm is a specification where a line at its top begins with CoreASM.
autocmd BufRead,BufNewFile *.asm if match(getline(1, 50), '^\s*CoreASM\>') >= 0 | set filetype=coreasm | endif
