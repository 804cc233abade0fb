module: counter

// Counters: each call makes a new one, which keeps its own count.
define function make-counter (step)
  let count = 0;
  method ()
    count := count + step;
    count
  end
end;

define constant ones = make-counter(1);
define constant tens = make-counter(10);

for (turn from 1 to 3)
  format-out("%d %d\n", ones(), tens())
end;
