module: dylan-user

define library calendar
  use dylan;
  use io;
  export dates;
end library;

define module whole-numbers
  use dylan;
  export divide;
end module;

// What others may ask of dates. The module creates the names; date-rules defines them.
define module dates
  create week-length, weekday, month-name, days-in, leap-year?;
end module;

define module date-rules
  use dylan;
  use whole-numbers;
  use dates, rename: {days-in => days-in-month};
end module;

define module sheets
  use dylan;
  use format-out, import: {format-out => print};
  use dates, exclude: {leap-year?}, prefix: "date-";
  export print-month;
end module;

define module calendar
  use dylan;
  use format-out;
  use dates, import: {leap-year?};
  use sheets;
end module;
