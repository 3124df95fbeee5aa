vim.filetype.add({ extension = { dbp = "dbp" } })
vim.lsp.config("dbp", { cmd = { "dbp-language_server" }, filetypes = { "dbp" }, init_options = { tick = "1ms" } })
vim.lsp.enable("dbp")
