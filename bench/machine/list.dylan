module: machine

define function pair-of (head, tail) method (take) take(head, tail) end end;

define function made (n)
  let list = #f;
  while (0 < n) list := pair-of(n, list); n := n - 1 end;
  list
end;

define function f (n)
  let list = made(n);
  let sum = 0;
  while (list)
    sum := sum + list(method (head, tail) head end);
    list := list(method (head, tail) tail end)
  end;
  sum
end;

format-out("%d\n", f(1000));
