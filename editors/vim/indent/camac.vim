" Vim indent file
" Language: CAMAC readout scripts (camac)

if exists('b:did_indent')
  finish
endif
let b:did_indent = 1

setlocal indentexpr=CamacIndent(v:lnum) indentkeys=0{,0},o,O,!^F
let b:undo_indent = 'setlocal indentexpr< indentkeys<'

if exists('*CamacIndent')
  finish
endif

" A line stands one step further in for each brace that is open there; what closes at its begin does not count.
function CamacIndent(number) abort
  let before = prevnonblank(a:number - 1)
  let text = substitute(substitute(getline(before), '#.*', '', ''), '^[ \t}]*', '', '')
  let closed = count(matchstr(getline(a:number), '^[ \t}]*'), '}')
  return max([0, indent(before) + (count(text, '{') - count(text, '}') - closed) * shiftwidth()])
endfunction
