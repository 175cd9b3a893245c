" Vim syntax file for sources of gams25.
if exists("b:current_syntax")
  finish
endif
syntax case ignore
syntax sync fromstart

syntax keyword gams25Statement abort alias display equation equations free loop model models negative
syntax keyword gams25Statement option options parameter parameters positive scalar scalars set sets solve
syntax keyword gams25Statement table variable variables
syntax keyword gams25Word all lp maximizing minimizing using and or xor not yes no eq ge gt le lt ne
syntax keyword gams25Value inf na
syntax keyword gams25Function abs ceil floor max min mod power round sign sqr trunc ord card sum prod smin smax
syntax keyword gams25LeftOut eps undf
syntax match gams25LeftOut /\%(^\|[;(]\)\s*\zs\%(binary\|integer\|sos1\|sos2\|acronym\|file\|for\|if\|put\|while\)\>/
syntax match gams25LeftOut /\<\%(arctan\|cos\|errorf\|exp\|log\|log10\|normal\|sin\|sqrt\|uniform\)\ze\s*(/

syntax match gams25Suffix /\.\%(lo\|up\|l\|m\|fx\|modelstat\|solvestat\)\>/
syntax match gams25Sense /=[elgn]=/
syntax match gams25Sense /\.\./
syntax match gams25Condition /\$/
syntax match gams25Number /\<\d\+\%(\.\d*\)\?\%(e[+-]\?\d\+\)\?\>/
syntax match gams25Number /\%(^\|[^0-9A-Za-z_.]\)\zs\.\d\+\%(e[+-]\?\d\+\)\?\>/
syntax region gams25Text start=/"/ end=/"/ oneline
syntax region gams25Text start=/'/ end=/'/ oneline
syntax match gams25Control /^\$.*$/
syntax match gams25Comment /^\*.*$/
syntax region gams25Comment start=/^\$ontext\>/ end=/^\$offtext.*$/

highlight default link gams25Statement Statement
highlight default link gams25Word Keyword
highlight default link gams25Value Constant
highlight default link gams25Function Function
highlight default link gams25LeftOut Error
highlight default link gams25Suffix Identifier
highlight default link gams25Sense Operator
highlight default link gams25Condition Conditional
highlight default link gams25Number Number
highlight default link gams25Text String
highlight default link gams25Control PreProc
highlight default link gams25Comment Comment

let b:current_syntax = "gams25"
