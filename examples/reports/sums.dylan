module: sums

define variable made = 0;

define function passes () made end;

define function count-pass () made := made + 1 end;

define function sum (sequence, length)
  count-pass();
  let found = 0;
  for (place from 1 to length) found := found + sequence(place) end;
  found
end;

define function sum-of-products (one, other, length)
  sum(method (place) one(place) * other(place) end, length)
end;
