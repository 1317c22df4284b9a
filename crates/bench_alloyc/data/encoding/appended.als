-- Facts behind a sig, with the sig's own fields.
sig A { f: set A, g: set f } { f != g and some f implies this in g }
fact grows { some A implies some g }
run {} for 1
run { some A } for 1
run {} for 2
