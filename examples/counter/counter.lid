library: counter
files: library
 counter
