-- Starts lrkit-lsp for each grammar file. Put it into ~/.config/nvim/plugin/.
vim.filetype.add({ extension = { y = "lrkit" } })
vim.api.nvim_create_autocmd("FileType", {
  pattern = "lrkit",
  callback = function(event)
    vim.lsp.start({ name = "lrkit", cmd = { "lrkit-lsp" }, root_dir = vim.fn.getcwd() }, { bufnr = event.buf })
  end,
})
