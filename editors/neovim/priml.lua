-- Faults as you type, symbols, hover and completion by `lens lsp`, for Neovim 0.7 and later. Copy to a folder `plugin` of its
-- configuration, and name lens by its path where it is not found by its name.
vim.api.nvim_create_autocmd({ "BufRead", "BufNewFile" }, {
  pattern = "*.priml",
  callback = function(event)
    vim.bo[event.buf].filetype = "priml"
  end,
})

local client
vim.api.nvim_create_autocmd("FileType", {
  pattern = "priml",
  callback = function(event)
    local name = vim.api.nvim_buf_get_name(event.buf)
    local config = { name = "lens", cmd = { "lens", "lsp" }, root_dir = vim.fn.fnamemodify(name, ":h") }
    if vim.lsp.start then
      vim.lsp.start(config, { bufnr = event.buf })
      return
    end
    -- before 0.8: one server for all files
    if not client or vim.lsp.client_is_stopped(client) then
      client = vim.lsp.start_client(config)
    end
    vim.lsp.buf_attach_client(event.buf, client)
  end,
})
