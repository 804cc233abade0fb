module: machine

define function f (n) if (n < 2) n else f(n - 1) + f(n - 2) end end;

format-out("%d\n", f(1000));
