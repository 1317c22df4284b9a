-- Fields and their multiplicities.
sig A { s: set B, o: one B, l: lone B, m: some B }
sig B {}
run {} for 1
run { some A and some B } for 1 but 2 B
run { some a: A | a.s = a.o } for 1 but 2 B
