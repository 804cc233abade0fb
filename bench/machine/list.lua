local function pair_of(head, tail) return function(take) return take(head, tail) end end
local function made(n)
  local list = nil
  while n > 0 do list = pair_of(n, list); n = n - 1 end
  return list
end
local function f(n)
  local list, sum = made(n), 0
  while list do
    sum = sum + list(function(head, tail) return head end)
    list = list(function(head, tail) return tail end)
  end
  return sum
end
print(f(math.tointeger(arg[1])))
