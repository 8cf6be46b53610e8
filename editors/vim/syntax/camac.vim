" Vim syntax file
" Language: CAMAC readout scripts (camac)

if exists('b:current_syntax')
  finish
endif

syntax case match

syntax keyword camacDeclaration table cdlam var proc service
syntax keyword camacHeading within cycles event words steps
syntax keyword camacAction cdreg cfsa cssa cfmad cfubc cfubr max limit tally put
syntax keyword camacCall cccz cccc ctci ctcd ctgl ccci cccd cclm cclc ctlm
syntax keyword camacSwitch on off
syntax keyword camacControl if else for to while turns by keep in lock call
syntax keyword camacOperator and not
syntax keyword camacFlag q x

" `each` is a word behind the last number of a `for` alone.
syntax match camacControl '\%(\<to\s\+\d\+\s\+\)\@<=each\>'
syntax match camacNumber '\<\d\+\>'
syntax match camacSign '->\|<-\|\.\.\|==\|!=\|<=\|>=\|[-+*/%=<>,]'
syntax match camacComment '#.*$' contains=camacTodo,@Spell
syntax keyword camacTodo TODO FIXME XXX contained

highlight default link camacDeclaration Structure
highlight default link camacHeading Keyword
highlight default link camacAction Statement
highlight default link camacCall Function
highlight default link camacSwitch Constant
highlight default link camacControl Conditional
highlight default link camacOperator Operator
highlight default link camacFlag Constant
highlight default link camacNumber Number
highlight default link camacSign Operator
highlight default link camacComment Comment
highlight default link camacTodo Todo

let b:current_syntax = 'camac'
