-- The twin of table.rg.
local n, times = tonumber(arg[1]), tonumber(arg[2])
local slots, many, nodes = {}, 4096, 0
for i = 0, many - 1 do slots[i] = false end
local function add(key)
  local at = key % many
  local node = slots[at]
  while node and node.key ~= key do node = node.next end
  if not node then
    node = { key = key, count = 0, next = slots[at] }
    slots[at] = node
    nodes = nodes + 1
  end
  node.count = node.count + 1
end
for turn = 1, times do
  local x = 1
  for k = 1, n do
    add(x)
    x = (x * 75 + 74) % 65537
  end
end
print(nodes)
local node = slots[1]
while node do
  print(node.key)
  print(node.count)
  node = node.next
end
