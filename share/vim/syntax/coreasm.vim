" Colours for specifications of asm.
if exists('b:current_syntax')
  finish
endif

syntax keyword coreasmItem CoreASM use init enum universe function controlled static initially derived rule
syntax keyword coreasmRule skip par endpar seq endseq if then else endif let in endlet
syntax keyword coreasmRule forall with do endforall choose ifnone endchoose iterate enditerate while endwhile
syntax keyword coreasmOperator and or not div mod exists holds
syntax keyword coreasmConstant true false undef result
syntax keyword coreasmCodomain NUMBER BOOLEAN ANY
syntax match coreasmNumber '\<\d\+\>'
syntax match coreasmComment '//.*$' contains=coreasmTodo
syntax region coreasmComment start='/\*' end='\*/' contains=coreasmTodo
syntax keyword coreasmTodo TODO FIXME contained

" Bytes that begin no token, and numbers with letters.
syntax match coreasmError '==\|[][;"''%&|@$?\\]\|!=\@!'
syntax match coreasmError '\<\d\+[A-Za-z_]\w*'

highlight default link coreasmItem Keyword
highlight default link coreasmRule Statement
highlight default link coreasmOperator Operator
highlight default link coreasmConstant Constant
highlight default link coreasmCodomain Type
highlight default link coreasmNumber Number
highlight default link coreasmComment Comment
highlight default link coreasmTodo Todo
highlight default link coreasmError Error

let b:current_syntax = 'coreasm'
