-- The twin of examples/graph.rg.
local nodes = {}
for k = 0, 4 do nodes[k] = {number = k, edges = {}} end
local function lead(k, to) table.insert(nodes[k].edges, 1, nodes[to]) end
for k = 1, 4 do lead(k - 1, k); lead(k, k - 1) end
lead(4, 0)
lead(0, 4)

local function step(walker, takes_first)
  walker.at = walker.at.edges[takes_first and 1 or 2]
  walker.sum = walker.sum + walker.at.number
end

local one, two = {at = nodes[4], sum = 0}, {at = nodes[4], sum = 0}
for k = 0, 6 do
  step(one, k % 3 == 1)
  print(one.at.number)
  step(two, k % 2 == 0)
end
print(one.at == two.at)
print(one.sum)
print(two.sum)
