// A number, printed.
main arena { print 7; }
