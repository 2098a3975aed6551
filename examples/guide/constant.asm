CoreASM Constant
init Fill
function static capacity initially 40
derived half = capacity div 2
function controlled level initially 0
rule Fill = if level < half then level := level + 10 endif
