" Comments of specifications of asm: `//` to the end of the line, and `/* */`.
if exists('b:did_ftplugin')
  finish
endif
let b:did_ftplugin = 1

setlocal commentstring=//\ %s
setlocal comments=://,s1:/*,mb:*,ex:*/
let b:undo_ftplugin = 'setlocal commentstring< comments<'
