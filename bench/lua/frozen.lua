-- The twin of the frozen regions: tables in one another, each of them marked, and walked once.
local size = tonumber(arg[1])
local house
for k = 1, size do house = { number = k, inner = house } end
local at = house
while at do
  at.is_frozen = true
  at = at.inner
end
local sum = 0
at = house
while at do
  sum = sum + at.number
  at = at.inner
end
print(sum)
