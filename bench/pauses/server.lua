-- The twin of server.rg: lua5.4 server.lua SESSIONS REQUESTS MODE, where MODE is incremental, generational or whole: a collection
-- of the whole heap behind each twentieth request.
local many, requests, mode = tonumber(arg[1]), tonumber(arg[2]), arg[3]
collectgarbage(mode == "generational" and mode or "incremental")

local function open(many)
  local first = {hits = 0}
  first.next = first
  for k = 2, many do first.next = {hits = 0, next = first.next} end
  return first
end

local function fill(seed)
  local first
  for k = 0, 99 do first = {value = (seed + k) % 7, next = first} end
  return first
end

local function turn(from)
  local to
  while from do to = {value = from.value, next = to}; from = from.next end
  return to
end

local function sum(at)
  local sum = 0
  while at do sum = sum + at.value; at = at.next end
  return sum
end

local at = open(many)
for k = 0, requests - 1 do
  local first = fill(k)
  for _ = 1, 9 do first = turn(first) end
  local sum = sum(first)
  at.hits = at.hits + sum
  at = at.next
  if mode == "whole" and k % 20 == 19 then collectgarbage("collect") end
  print(sum)
end
