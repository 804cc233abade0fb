module: date-rules

define constant week-length = 7;

define function divides? (divisor, number)
  let (quotient, rest) = divide(number, divisor);
  rest == 0
end;

define function leap-year? (year)
  divides?(4, year) & ~ divides?(100, year) | divides?(400, year)
end;

define function days-in-month (month, year)
  select (month)
    2 => if (leap-year?(year)) 29 else 28 end;
    4, 6, 9, 11 => 30;
    otherwise => 31
  end
end;

// By how many days of the week a month begins behind the begin of its year, which is March.
define function shift (month)
  select (month)
    1, 5 => 0;
    8 => 1;
    3, 11 => 2;
    2, 6 => 3;
    9, 12 => 4;
    4, 7 => 5;
    otherwise => 6
  end
end;

// Days of the week from Monday on, which is 0.
define function weekday (day, month, year)
  let years = if (month < 3) year - 1 else year end;
  let leaps = divide(years, 4) - divide(years, 100) + divide(years, 400);
  let (weeks, days) = divide(years + leaps + shift(month) + day - 1, week-length);
  days
end;

define function month-name (month)
  select (month)
    1 => "January";
    2 => "February";
    3 => "March";
    4 => "April";
    5 => "May";
    6 => "June";
    7 => "July";
    8 => "August";
    9 => "September";
    10 => "October";
    11 => "November";
    12 => "December"
  end
end;
