module: sheets

define function print-day (day)
  print(if (day < 10) " %d" else "%d" end, day)
end;

// A month with a line for each week.
define function print-month (month, year)
  let column = date-weekday(1, month, year);
  let last = date-days-in(month, year);
  print("%s %d\nMo Tu We Th Fr Sa Su\n", date-month-name(month), year);
  for (blank from 1 to column)
    print("   ")
  end;
  for (day from 1 to last)
    print-day(day);
    column := column + 1;
    if (day == last | column == date-week-length)
      column := 0;
      print("\n")
    else
      print(" ")
    end
  end
end;
