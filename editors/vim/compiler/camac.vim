" Vim compiler file
" Compiler: camac-check. It judges the script of the buffer on plan.toml, or on the plan that b:camac_plan or g:camac_plan names.

if exists('current_compiler')
  finish
endif
let current_compiler = 'camac'

if exists(':CompilerSet') != 2
  command -nargs=* CompilerSet setlocal <args>
endif

let s:plan = get(b:, 'camac_plan', get(g:, 'camac_plan', 'plan.toml'))
execute 'CompilerSet makeprg=camac-check\ ' . escape(shellescape(s:plan), ' \|"') . '\ %:S'
CompilerSet errorformat=%f:%l:%c:\ %tarning\ %m,%f:%l:\ %tarning\ %m,%f:%l:%c:\ %m,%f:%l:\ %m,%f:\ fault:\ %m
