module: sorting

// A chain of numbers: a closure that holds the first number and the chain behind it. The empty
// chain is #f.
define function link (number, chain)
  method (give) give(number, chain) end
end;

define function first (chain) chain(method (number, others) number end) end;
define function rest (chain) chain(method (number, others) others end) end;

// The chain with one number more, in front of the first one that is larger.
define function insert (number, chain)
  if (~ chain | number < first(chain))
    link(number, chain)
  else
    link(first(chain), insert(number, rest(chain)))
  end
end;

define function sort (chain)
  let sorted = #f;
  for (left = chain then rest(left), while: left)
    sorted := insert(first(left), sorted)
  end;
  sorted
end;

define function print (chain)
  for (left = chain then rest(left), while: left)
    format-out("%d ", first(left))
  end;
  format-out("\n")
end;

// Numbers without an order: each is 7 times the one before it, within 0 to 100.
define function numbers (count)
  let chain = #f;
  let number = 1;
  for (turn from 1 to count)
    chain := link(number, chain);
    number := 7 * number;
    until (number < 101)
      number := number - 101
    end
  end;
  chain
end;

define constant some = numbers(12);
print(some);
print(sort(some));
