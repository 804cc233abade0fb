local function f(n) local i = 0; while i < n do io.write(i, "\n"); i = i + 1 end end
f(math.tointeger(arg[1]))
