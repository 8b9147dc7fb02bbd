-- The twin of bubble.rg.
local n, times = tonumber(arg[1]), tonumber(arg[2])
local row = {}
for turn = 1, times do
  local x = 1
  for i = 0, n - 1 do
    row[i] = x
    x = (x * 75 + 74) % 65537
  end
  local last = n - 1
  while last > 0 do
    local i = 0
    while i < last do
      local a, b = row[i], row[i + 1]
      if a > b then
        row[i] = b
        row[i + 1] = a
      end
      i = i + 1
    end
    last = last - 1
  end
end
print(row[0])
print(row[n // 2])
print(row[n - 1])
