module: machine

define function f (n)
  let i = 0;
  while (i < n) format-out("%d\n", i); i := i + 1 end
end;

f(1000);
