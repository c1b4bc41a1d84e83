" Syntax of PriML.
if exists("b:current_syntax")
  finish
endif

syntax keyword primlDeclaration priority order proc main at
syntax keyword primlAction ret spawn sync call do input output
syntax keyword primlBranch if else case
syntax keyword primlFunction inl inr fst snd
syntax keyword primlOperator not and or
syntax keyword primlConstant true false
syntax keyword primlType unit bool int thread
syntax match primlSign "<-\|<=\|==\|[<+\-*/%]"
syntax match primlNumber "\<\d\+\>"
syntax match primlRoutine "\(\<\(proc\|call\)\s\+\)\@<=\h\w*"
syntax match primlPriority "\(\<\(priority\|order\|at\)\s\+\)\@<=\h\w*"
syntax match primlPriority "\(\<order\s\+\h\w*\s*<\s*\)\@<=\h\w*"
syntax match primlComment "#.*$" contains=@Spell,primlTodo
syntax keyword primlTodo TODO FIXME contained
" Behind the program: its inputs and a schedule.
syntax region primlSection matchgroup=primlHead start="^===.*$" end="\%$" contains=primlHead,primlPath,primlNote
syntax match primlHead "^===.*$" contained
syntax match primlPath "\<0\(\.\d\+\)*\ze:" contained
syntax match primlNote "^#.*$" contained

highlight default link primlDeclaration Keyword
highlight default link primlAction Statement
highlight default link primlBranch Conditional
highlight default link primlFunction Function
highlight default link primlOperator Operator
highlight default link primlSign Operator
highlight default link primlConstant Constant
highlight default link primlType Type
highlight default link primlNumber Number
highlight default link primlRoutine Function
highlight default link primlPriority Identifier
highlight default link primlComment Comment
highlight default link primlNote Comment
highlight default link primlTodo Todo
highlight default link primlHead PreProc
highlight default link primlPath Identifier

let b:current_syntax = "priml"
