" The policy language of Propane, for Vim.
if exists("b:current_syntax")
  finish
endif
syntax case match
syntax iskeyword @,48-57,_,-,.
syntax keyword propaneItem define originate at from
syntax keyword propaneOperator or and not le
syntax keyword propaneCall any drop internal avoid through notransit start end link path exit enter
syntax keyword propaneConstant true
syntax match propaneFigure "\<[0-9][0-9./]*"
syntax match propaneArrow "=>\|>>"
syntax match propaneComment "#.*$" contains=propaneTodo
syntax keyword propaneTodo TODO FIXME XXX contained
highlight default link propaneItem Statement
highlight default link propaneOperator Operator
highlight default link propaneCall Function
highlight default link propaneConstant Constant
highlight default link propaneFigure Number
highlight default link propaneArrow Operator
highlight default link propaneComment Comment
highlight default link propaneTodo Todo
let b:current_syntax = "propane"
