local function f(n)
  local i = 0
  while i < n do
    io.write(string.format("%d %d %d %d %d %d %d %d %d %d\n",
      i, i + 1, i + 2, i + 3, i + 4, i + 5, i + 6, i + 7, i + 8, i + 9))
    i = i + 10
  end
end
f(math.tointeger(arg[1]))
