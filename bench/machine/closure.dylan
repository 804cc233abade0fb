module: machine

define function make-counter ()
  let c = 0;
  method () c := c + 1 end
end;

define function f (n)
  let counter = make-counter();
  let i = 0;
  while (i < n) counter(); i := i + 1 end;
  counter()
end;

format-out("%d\n", f(1000));
