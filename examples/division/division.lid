library: division
files: library
 division
