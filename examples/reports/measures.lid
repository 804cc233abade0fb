library: measures
files: measures-library
 sums
 extremes
