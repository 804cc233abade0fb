module: machine

define function f (n)
  let i = 0;
  while (i < n) i := i + 1 end;
  i
end;

format-out("%d\n", f(1000));
