-- Drives a headless neovim with the set-up of docs/EDITORS.md. It prints what an editor would show.
local function out(...) io.stdout:write(string.format(...), '\n') end
local uv = vim.loop
local shown, begun, took = {}, 0, nil
local publish = vim.lsp.handlers['textDocument/publishDiagnostics']
vim.lsp.handlers['textDocument/publishDiagnostics'] = function(error, result, context, config)
  publish(error, result, context, config)
  shown[result.uri] = result.diagnostics
  if result.uri == vim.uri_from_bufnr(0) and begun > 0 then took = (uv.hrtime() - begun) / 1e6 end
end

local function wait(test) return vim.wait(60000, test, 1) end
local function lines() return vim.api.nvim_buf_get_lines(0, 0, -1, false) end
local function set(new) vim.api.nvim_buf_set_lines(0, 0, -1, false, new) end

-- Calls a function that changes the text, and returns the milliseconds until the diagnostics came.
local function timed(act)
  took, begun = nil, uv.hrtime()
  act()
  wait(function() return took ~= nil end)
  begun = 0
  return took
end

local function show(what)
  out('%s', what)
  for _, one in ipairs(shown[vim.uri_from_bufnr(0)] or {}) do
    out('  %d:%d %s', one.range.start.line + 1, one.range.start.character + 1, one.message)
  end
end

local function open(path)
  shown[vim.uri_from_fname(vim.fn.getcwd() .. '/' .. path)] = nil
  vim.cmd('edit ' .. path)
  wait(function() return shown[vim.uri_from_bufnr(0)] ~= nil end)
end

local function ask(method, line, character)
  local params = {
    textDocument = { uri = vim.uri_from_bufnr(0) },
    position = { line = line, character = character },
    context = { includeDeclaration = false },
  }
  local start = uv.hrtime()
  local answers = vim.lsp.buf_request_sync(0, 'textDocument/' .. method, params, 60000) or {}
  for _, one in pairs(answers) do return one.result, (uv.hrtime() - start) / 1e6 end
end

local function place(found)
  if not found or found == vim.NIL then return 'nothing' end
  local uri = found.uri:gsub('^.*/tree/', '')
  return uri .. ':' .. found.range.start.line + 1
end

return {
  out = out, timed = timed, show = show, open = open, ask = ask, place = place,
  lines = lines, set = set, wait = wait, shown = shown,
}
