-- The twin of the loop: it counts to its size.
local size = tonumber(arg[1])
local k = 0
while k < size do k = k + 1 end
print(k)
