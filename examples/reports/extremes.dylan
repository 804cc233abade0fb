module: extremes

// The value that comes before all others by the test.
define function first-by (before?, sequence, length)
  the-count-pass();
  let found = sequence(1);
  for (place from 2 to length)
    if (before?(sequence(place), found)) found := sequence(place) end
  end;
  found
end;

define function least (sequence, length) first-by(\<, sequence, length) end;

define function greatest (sequence, length)
  first-by(method (a, b) b < a end, sequence, length)
end;
