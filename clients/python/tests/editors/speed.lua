-- Twelve changes of a BUILD file, and then of a .bzl file, with the milliseconds of each.
local drive = dofile(vim.env.EDITORS .. '/drive.lua')
local function edits(path, at, what)
  drive.open(path)
  local good = drive.lines()
  local all = {}
  for number = 1, 12 do
    all[#all + 1] = drive.timed(function()
      local new = vim.deepcopy(good)
      if number % 2 == 1 then table.insert(new, at, 'x' .. number .. ' = unbound') end
      drive.set(new)
    end)
    local count = #drive.shown[vim.uri_from_bufnr(0)]
    if count ~= number % 2 then drive.out('wrong: %s, edit %d, %d shown', path, number, count) end
    vim.wait(150)
  end
  table.sort(all)
  drive.out('%s %.1f', what, all[6])
end
edits(vim.env.BUILD_FILE, 3, 'build')
local label = {}
for _ = 1, 12 do
  local _, took = drive.ask('completion', 0, 12)
  label[#label + 1] = took
end
table.sort(label)
drive.out('completion %.1f', label[6])
edits(vim.env.BZL_FILE, 2, 'bzl')
vim.cmd('qa!')
