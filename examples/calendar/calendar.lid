library: calendar
files: library
 whole-numbers
 date-rules
 sheets
 calendar
