module: dylan-user

// What a sequence measures. A sequence is a function from places, counted from 1, to numbers.
define library measures
  use dylan;
  export sums, extremes, measures;
end library measures;

define module counts
  create passes, count-pass;
end module counts;

define module sums
  use dylan;
  use counts;
  export sum, sum-of-products;
end module sums;

define module extremes
  use dylan;
  use counts, prefix: "the-";
  export least, greatest;
end module extremes;

// All of it under one name, and how many passes were made.
define module measures
  use sums, export: all;
  use extremes, export: all;
  use counts, import: {passes}, export: {passes};
end module measures;
