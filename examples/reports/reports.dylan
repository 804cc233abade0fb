module: reports

define constant length = 10;

define function square (n) n * n end;

define function valley (n) n * n - 12 * n end;

define method report (name, sequence)
  format-out("%s: sum %d, least %d, greatest %d\n",
             name, m-sum(sequence, length), m-least(sequence, length),
             m-greatest(sequence, length));
end;

report("squares", square);
report("valley", valley);
format-out("squares by valley: %d\n", m-sum-of-products(square, valley, length));
format-out("passes: %d\n", passes-made());
