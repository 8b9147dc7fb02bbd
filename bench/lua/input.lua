-- The twin of the sum: it adds up the numbers of its input.
local sum = 0
local number = io.read("n")
while number do
  sum = sum + number
  number = io.read("n")
end
print(sum)
