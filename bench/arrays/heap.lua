-- The twin of heap.rg.
local n, times = tonumber(arg[1]), tonumber(arg[2])
local items, many = {}, 0
local function push(value)
  local at = many
  many = at + 1
  while at > 0 do
    local above = (at - 1) // 2
    local other = items[above]
    if other > value then
      items[at] = other
      at = above
    else
      break
    end
  end
  items[at] = value
end
local function pop()
  local least = items[0]
  many = many - 1
  local value = items[many]
  local at, child = 0, 1
  while child < many do
    local lesser = items[child]
    if child + 1 < many then
      local other = items[child + 1]
      if other < lesser then
        lesser = other
        child = child + 1
      end
    end
    if lesser < value then
      items[at] = lesser
      at = child
      child = 2 * child + 1
    else
      child = many
    end
  end
  items[at] = value
  return least
end
local sum = 0
for turn = 1, times do
  local x = 1
  for k = 1, n do
    push(x)
    x = (x * 75 + 74) % 65537
  end
  for k = 1, n do sum = (sum * 31 + pop()) % 1000003 end
end
print(sum)
