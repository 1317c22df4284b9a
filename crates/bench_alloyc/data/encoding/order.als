-- An order of two atoms.
open util/ordering[A]
sig A {}
var sig Marked in A {}
fact { all a: Marked | a.nexts in Marked }
run {} for 1 but 3 steps
run { after no Marked } for 1 but 2 steps
run { some Marked } for exactly 2 A, 1 steps
run { first.next = last and last in Marked } for exactly 2 A, 1 steps
run { lt[first, last] and first not in Marked } for 2 but 1 steps
