" Vim syntax of an Alpha text, and of the data behind a line %% (docs/LANGUAGE.md, docs/FORMATS.md).
" Copy it to ~/.vim/syntax/alpha.vim, and have in ~/.vim/ftdetect/alpha.vim: autocmd BufNewFile,BufRead *.alpha setfiletype alpha
if exists("b:current_syntax")
  finish
endif
syntax case match

syntax keyword alphaStructure system returns var let tel
syntax keyword alphaConditional case esac if then else
syntax keyword alphaFunction reduce min max
syntax keyword alphaType of integer word
syntax match alphaNumber /\<\d\+\>/
syntax match alphaNumber /\<\d\+\ze\a/
syntax match alphaOperator /->\|<>\|<=\|>=\|[-+*=<>.|]/
syntax match alphaComment /--.*/ contains=@Spell
syntax match alphaDivider /^%%\r\?$/

highlight default link alphaStructure Structure
highlight default link alphaConditional Conditional
highlight default link alphaFunction Function
highlight default link alphaType Type
highlight default link alphaNumber Number
highlight default link alphaOperator Operator
highlight default link alphaComment Comment
highlight default link alphaDivider PreProc
let b:current_syntax = "alpha"
