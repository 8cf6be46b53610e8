" Tells ALE (https://github.com/dense-analysis/ale, package vim-ale of Debian) of camac-lsp.

call ale#linter#Define('camac', {
\   'name': 'camac_lsp',
\   'lsp': 'stdio',
\   'executable': get(g:, 'camac_lsp', 'camac-lsp'),
\   'command': '%e',
\   'project_root': {buffer -> fnamemodify(bufname(buffer), ':p:h')},
\})
