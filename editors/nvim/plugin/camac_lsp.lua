-- Starts camac-lsp for scripts of camac, and for their plans, where it is in PATH. It needs Neovim 0.7 or newer.
-- `vim.g.camac_lsp = false` in the init file keeps it from that; `vim.g.camac_lsp = { 'COMMAND', .. }` names another command.
if vim.g.loaded_camac_lsp or vim.g.camac_lsp == false or not vim.api.nvim_create_autocmd then
  return
end
vim.g.loaded_camac_lsp = true

local client

local function is_plan(buffer)
  for _, line in ipairs(vim.api.nvim_buf_get_lines(buffer, 0, 400, false)) do
    if line:match('^%s*%[%[%s*type') or line:match('^%s*%[%[%s*crate') then
      return true
    end
  end
  return false
end

local function begin(event)
  local command = vim.g.camac_lsp or { 'camac-lsp' }
  if event.match == 'toml' and not is_plan(event.buf) or vim.fn.executable(command[1]) == 0 then
    return
  end
  local config = { name = 'camac-lsp', cmd = command, root_dir = vim.fn.getcwd() }
  if vim.lsp.start then -- from 0.8 on
    vim.lsp.start(config, { bufnr = event.buf })
    return
  end
  if not client or not vim.lsp.get_client_by_id(client) then
    client = vim.lsp.start_client(config)
  end
  if client then
    vim.lsp.buf_attach_client(event.buf, client)
  end
end

vim.api.nvim_create_autocmd('FileType', { pattern = { 'camac', 'toml' }, callback = begin })
