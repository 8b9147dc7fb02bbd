-- The twin of the list program: a list that is filled, summed up, halved, and filled again.
local size = tonumber(arg[1])
local List = {}
List.__index = List
function List:push(v)
  local n = { value = v, next = self.head }
  self.head = n
end
function List:thin()
  local p = self.head
  while p do
    if p.next then
      p.next = p.next.next
      p = p.next
    else
      p = nil
    end
  end
end
function List:sum()
  local s, p = 0, self.head
  while p do
    s = s + p.value
    p = p.next
  end
  return s
end
local l = setmetatable({}, List)
for i = 1, size do l:push(i % 1000) end
print(l:sum())
l:thin()
print(l:sum())
for i = 1, size do l:push(i % 1000) end
print(l:sum())
