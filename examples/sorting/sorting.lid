library: sorting
files: library
 sorting
