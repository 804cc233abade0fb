library: reports
files: reports-library
 reports
