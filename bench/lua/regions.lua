-- The twin of the regions: tables in one another, walked from the outermost, so many times over.
local size, times = tonumber(arg[1]), tonumber(arg[2])
local Room = {}
Room.__index = Room
function Room:sum()
  local sum = self.number
  if self.inner then sum = sum + self.inner:sum() end
  return sum
end
local house
for k = 1, size do house = setmetatable({ number = k, inner = house }, Room) end
local sum = 0
for _ = 1, times do sum = house:sum() end
print(sum)
