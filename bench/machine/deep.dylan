module: machine

define function f (n) if (n < 1) 0 else 1 + f(n - 1) end end;

format-out("%d\n", f(1000));
