module: machine

define function f (n)
  let i = 0;
  while (i < n)
    format-out("%d %d %d %d %d %d %d %d %d %d\n",
               i, i + 1, i + 2, i + 3, i + 4, i + 5, i + 6, i + 7, i + 8, i + 9);
    i := i + 10
  end
end;

f(1000);
