-- What may change and what may not.
var sig A { var f: lone B }
sig B {}
var one sig C in B {}
fact { always some f }
run {} for 1 but 2 steps
run { eventually no A } for 1 but 2 steps
run { after C != C } for 1 but 3 steps
run {} for 2 but 1 steps
run { f != f' } for 1 but 2 steps
