" Vim syntax file
" Language: services and scenarios of Rex (docs/LANGUAGE.md, docs/SCENARIOS.md)
" To use it, copy the folders syntax and ftdetect to ~/.vim.

if exists("b:current_syntax")
  finish
endif

syntax case match
syntax iskeyword @,48-57,_,%

" the words of services
syntax keyword rexDeclaration lanes lock rwlock sem cond var handler
syntax keyword rexWord on while
syntax keyword rexLock acquire share release try
syntax keyword rexCondition wait signal broadcast down up
syntax keyword rexLine set let clock random
syntax keyword rexBlock if else endif repeat endrepeat busy endtry
syntax keyword rexReply reply

" the words of schedules
syntax keyword rexStep elect submit lane cut deliver flush replay ask stop start checkpoint drop keepfail read
syntax keyword rexWord kept lost old
syntax match rexHeading "^\s*%\(nodes\|seed\|service\|requests\|schedule\)\>"

syntax match rexOperator "\(^\|\s\)\@1<=\([-+*/%<>]\|[=!<>]\?=\)\ze\(\s\|$\)"
syntax match rexNumber "\(^\|\s\)\@1<=-\?\d\+\ze\(\s\|$\)"

" what no line may have: parentheses and their like, numbers with a leading zero, and, in comments too, bytes that aren't allowed
syntax match rexError "[(){}\[\];,]"
syntax match rexError "\(^\|\s\)\@1<=-\?0\d\+\ze\(\s\|$\)"
syntax match rexByte "[^\t -~]"

syntax match rexComment "^\s*#.*$" contains=rexTodo,rexByte
syntax keyword rexTodo TODO FIXME contained

highlight default link rexDeclaration Type
highlight default link rexWord Statement
highlight default link rexLock Statement
highlight default link rexCondition Statement
highlight default link rexLine Statement
highlight default link rexBlock Conditional
highlight default link rexReply Keyword
highlight default link rexStep Function
highlight default link rexHeading PreProc
highlight default link rexOperator Operator
highlight default link rexNumber Number
highlight default link rexComment Comment
highlight default link rexTodo Todo
highlight default link rexError Error
highlight default link rexByte Error

let b:current_syntax = "rex"
