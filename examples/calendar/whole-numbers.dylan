module: whole-numbers

// Two values: how often a number holds another one, and what is left.
define function divide (number, divisor) => (quotient, rest)
  let quotient = 0;
  let rest = number;
  until (rest < divisor)
    rest := rest - divisor;
    quotient := quotient + 1
  end;
  values(quotient, rest)
end;
