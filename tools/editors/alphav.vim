" Vim syntax of the Verilog subset that alphav writes and reads, with its listing, and of a stimulus behind a line %% (docs/VERILOG.md, docs/FORMATS.md).
" Copy it to ~/.vim/syntax/alphav.vim; `:set filetype=alphav` takes it in place of Vim's own syntax of all of Verilog.
if exists("b:current_syntax")
  finish
endif
syntax case match

syntax keyword alphavStructure module endmodule
syntax keyword alphavType input output wire reg
syntax keyword alphavStatement assign always posedge
syntax keyword alphavConditional if else
syntax match alphavFunction /\$signed\>/
syntax match alphavNumber /\<\d\+\('d\d\+\)\?\>/
syntax match alphavPort /\.\h\w*/
syntax match alphavOperator /<=\|>=\|==\|!=\|[-+*&|<>=?:@{}]/
syntax match alphavComment "//.*" contains=@Spell
syntax match alphavListing "^// \(in\|at\) \a\w* ([-0-9,]*) \h\w* \d\+\r\?$"
syntax match alphavVersion "^// alphav \d\+\r\?$"
syntax match alphavDivider /^%%\r\?$/
syntax match alphavStimulus /^\s*\(cycles\|at\)\ze\s\+\d/
syntax match alphavComment /--.*/ contains=@Spell

highlight default link alphavStructure Structure
highlight default link alphavType Type
highlight default link alphavStatement Statement
highlight default link alphavConditional Conditional
highlight default link alphavFunction Function
highlight default link alphavNumber Number
highlight default link alphavPort Identifier
highlight default link alphavOperator Operator
highlight default link alphavComment Comment
highlight default link alphavListing SpecialComment
highlight default link alphavVersion PreProc
highlight default link alphavDivider PreProc
highlight default link alphavStimulus Statement
let b:current_syntax = "alphav"
