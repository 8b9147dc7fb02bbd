-- The twin of the recursion: so many calls deep, so many times over.
local depth, times = tonumber(arg[1]), tonumber(arg[2])
local R = {}
R.__index = R
function R:go(k)
  local r = k
  if k > 0 then r = self:go(k - 1) end
  return r
end
local a, r = setmetatable({}, R), 0
for _ = 1, times do r = a:go(depth) end
print(r)
