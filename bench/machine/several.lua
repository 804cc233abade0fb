local function around(n) return n + 1, n - 1 end
local function f(n)
  local sum, i = 0, 0
  while i < n do
    local more, less = around(i)
    sum = sum + more - less
    i = i + 1
  end
  return sum
end
print(f(math.tointeger(arg[1])))
