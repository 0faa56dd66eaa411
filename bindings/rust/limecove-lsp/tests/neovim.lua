-- Types random edits in neovim, and compares its text with the server's after each: tests/neovim.sh.
local server, edits = os.getenv("SERVER"), tonumber(os.getenv("EDITS"))
math.randomseed(tonumber(os.getenv("SEED")))
local failed, done, told = 0, 0, 0
local say = function(text) io.stdout:write(text .. "\n") end
local show = vim.lsp.handlers["textDocument/publishDiagnostics"]
vim.lsp.handlers["textDocument/publishDiagnostics"] = function(...)
  told = told + 1
  return show(...)
end
vim.lsp.handlers["window/logMessage"] = function(_, result)
  failed = failed + 1
  say("told: " .. result.message)
end
local client = vim.lsp.start_client({ cmd = { server }, root_dir = "/", flags = { debounce_text_changes = 0 } })
vim.wait(10000, function()
  local it = vim.lsp.get_client_by_id(client)
  return it and it.initialized
end)
local pieces = { "x", "# t", "[a]", "[a]: b", "[a][b]", "- i", "> q", "```", "é", "😀", "*e*", "`c`", "[]()", "  ", "<http://a>", "[b]: c", "### h" }
local keys = { "dd", "yyp", "J", "x", "u", "P", "D", "dw", ">>", "<<", "ggVGu", "3dd", "gUU", "o", "O", "A", "I", "i", "cc", ":s/a/ä/g\n", "vjd", "~", "p" }

local function text_of(buffer)
  local endings = { dos = "\r\n", mac = "\r", unix = "\n" }
  local ending = endings[vim.bo[buffer].fileformat]
  local text = table.concat(vim.api.nvim_buf_get_lines(buffer, 0, -1, true), ending)
  return vim.bo[buffer].eol and text .. ending or text
end

local function ask(buffer, method)
  local params = { textDocument = { uri = vim.uri_from_bufnr(buffer) } }
  for _, it in pairs(vim.lsp.buf_request_sync(buffer, method, params, 60000) or {}) do
    return it.result, it.error and it.error.message
  end
  return nil, "no answer"
end

local function random_key()
  local key = keys[math.random(#keys)]
  if not key:match("^[oOAIi]$") and key ~= "cc" then
    return key
  end
  local more = math.random(3) == 1 and "\r" .. pieces[math.random(#pieces)] or ""
  return key .. pieces[math.random(#pieces)] .. more .. "\27"
end

for _, file in ipairs(vim.fn.argv()) do
  vim.cmd("edit! " .. vim.fn.fnameescape(file))
  local buffer = vim.api.nvim_get_current_buf()
  vim.lsp.buf_attach_client(buffer, client)
  for edit = 1, edits do
    vim.api.nvim_win_set_cursor(0, { math.random(vim.api.nvim_buf_line_count(buffer)), 0 })
    vim.fn.cursor(vim.fn.line("."), math.random(#vim.api.nvim_get_current_line() + 1))
    local key = random_key()
    pcall(vim.cmd, "normal! " .. key)
    local said, reason = ask(buffer, "limecove/check")
    done = done + 1
    -- null is nil or vim.NIL, by the version of neovim
    local difference = said and said.difference ~= vim.NIL and said.difference
    if said and said.text ~= text_of(buffer) then
      difference = "another text"
    end
    if not said or difference then
      failed = failed + 1
      say(("differs: %s, edit %d, %q, %s"):format(file, edit, key, reason or tostring(difference)))
      break
    end
  end
  for _, method in ipairs({ "documentSymbol", "foldingRange", "documentLink", "semanticTokens/full" }) do
    if not ask(buffer, "textDocument/" .. method) then
      failed = failed + 1
      say("no " .. method)
    end
  end
  vim.cmd("bwipeout!")
end
say(("%d edits of %d files, diagnostics told %d times, %d failed"):format(done, vim.fn.argc(), told, failed))
vim.cmd(failed > 0 and "cquit" or "qall!")
