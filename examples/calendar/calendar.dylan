module: calendar

define constant year = 2028;

if (leap-year?(year))
  format-out("%d is a leap year.\n", year)
end;

for (month from 2 to 3)
  print-month(month, year)
end;
