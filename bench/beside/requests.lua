-- The twin of examples/requests.rg.
local requests, most = 0, 0
local many = io.read("n")
while many do
  local first
  for _ = 1, many do first = {value = io.read("n"), next = first} end
  local turned
  while first do turned = {value = first.value, next = turned}; first = first.next end
  local answer, place = 0, 1
  while turned do answer = answer + place * turned.value; place = place + 1; turned = turned.next end
  requests, most = requests + 1, math.max(most, answer)
  print(answer)
  many = io.read("n")
end
print(requests)
print(most)
