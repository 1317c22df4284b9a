open util/ordering[A] as x
open util/ordering[A] as y
open util/ordering[B] as z
one sig A, B {}
run {}
