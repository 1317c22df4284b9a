-- Commands with parameters.
sig A {}
var sig B in A {}
pred p[x: A, s: set A, r: A -> lone A] { x in B until s in x.r }
pred q[x, y: one A, t: B] { x != y and t in x }
run p for 2 but 1 steps
run p for 1 but 3 steps
run q for 2 but 1 steps
run q for 1 but 2 steps
