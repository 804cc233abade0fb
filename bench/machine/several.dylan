module: machine

define function around (n) values(n + 1, n - 1) end;

define function f (n)
  let sum = 0;
  let i = 0;
  while (i < n)
    let (more, less) = around(i);
    sum := sum + more - less;
    i := i + 1
  end;
  sum
end;

format-out("%d\n", f(1000));
