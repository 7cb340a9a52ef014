" Colours for scenarios. scripts/editor_files.py writes this file.
if exists("b:current_syntax")
  finish
endif
syn keyword lutinDeclaration node returns let exception exist in run
syn keyword lutinTrace loop fby assert raise catch trap try do
syn keyword lutinOperator pre not and or xor if then else div mod
syn keyword lutinType bool int real trace ref
syn keyword lutinBoolean true false
syn match lutinNumber "\<\d\+\(\.\d*\)\="
syn match lutinSymbol "|>\|&>\|=>\||"
syn match lutinComment "--.*$"
syn region lutinComment start="(\*" end="\*)"
hi def link lutinDeclaration Structure
hi def link lutinTrace Statement
hi def link lutinOperator Operator
hi def link lutinType Type
hi def link lutinBoolean Boolean
hi def link lutinNumber Number
hi def link lutinSymbol Special
hi def link lutinComment Comment
let b:current_syntax = "lutin"
