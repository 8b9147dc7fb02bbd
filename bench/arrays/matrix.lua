-- The twin of matrix.rg.
local n, times = tonumber(arg[1]), tonumber(arg[2])
local function made(step)
  local rows, value = {}, 1
  for i = 0, n - 1 do
    local row = {}
    for k = 0, n - 1 do
      row[k] = value
      value = (value + step) % 101
    end
    rows[i] = row
  end
  return rows
end
local function multiply(a, b, c)
  local i = 0
  while i < n do
    local row, into = a[i], c[i]
    local j = 0
    while j < n do
      local sum, k = 0, 0
      while k < n do
        local other = b[k]
        sum = sum + row[k] * other[j]
        k = k + 1
      end
      into[j] = sum
      j = j + 1
    end
    i = i + 1
  end
end
local a, b, c = made(7), made(13), made(0)
for turn = 1, times do multiply(a, b, c) end
local trace = 0
for i = 0, n - 1 do trace = trace + c[i][i] end
print(trace)
