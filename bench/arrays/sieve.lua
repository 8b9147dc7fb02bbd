-- The twin of sieve.rg.
local n, times = tonumber(arg[1]), tonumber(arg[2])
local row = {}
local found = 0
for turn = 1, times do
  local i = 2
  while i < n do
    row[i] = 1
    i = i + 1
  end
  found = 0
  i = 2
  while i < n do
    if row[i] == 1 then
      found = found + 1
      local k = i + i
      while k < n do
        row[k] = 0
        k = k + i
      end
    end
    i = i + 1
  end
end
print(found)
