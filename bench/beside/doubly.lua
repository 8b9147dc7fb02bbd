-- The twin of examples/doubly.rg.
local list = {}

local function push(value)
  local node = {value = value, before = list.last}
  if list.last then list.last.behind = node else list.first = node end
  list.last = node
end

local function take_out(node)
  if node.before then node.before.behind = node.behind else list.first = node.behind end
  if node.behind then node.behind.before = node.before else list.last = node.before end
end

local function sum(at, next)
  local sum = 0
  while at do sum = sum * 3 + at.value; at = at[next] end
  return sum
end

for k = 1, 10 do push(k) end
local at = list.first
while at do
  if at.value % 2 == 0 then take_out(at) end
  at = at.behind
end
print(sum(list.first, "behind"))
print(sum(list.last, "before"))
-- Nothing freezes it: a metatable may refuse new fields, and a write of one that is there it doesn't see.
print(list.first.behind.before == list.first)
print(list.last.value)
