-- The twin of the generated program: a list that is filled, summed up, halved, and filled again.
local size = tonumber(arg[1])
local A = 1
local B = size % 1000 * (A // 500)
local List = {}
List.__index = List
function List:push(v)
  local n = { value = v, next = self.head }
  self.head = n
end
function List:thin()
  local p = self.head
  local go = p ~= nil
  while go do
    if p.next == nil then
      go = false
    else
      p.next = p.next.next
      p = p.next
      go = p ~= nil
    end
  end
end
function List:sum()
  local s, p = 0, self.head
  while p do
    s = s + p.value
    p = p.next
  end
  return s
end
local l = setmetatable({}, List)
for i = 1, size do l:push((i * A + B) % 1000) end
print(l:sum())
l:thin()
print(l:sum())
for i = 1, size do l:push((i * A + B) % 1000) end
print(l:sum())
