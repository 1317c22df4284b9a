-- Arguments whose names are bound in the body, and arguments that are read later.
sig A {}
var sig B in A {}
pred p[x: A] { all y: A | x = y }
pred s[x: set A] { after some x }
pred t[x: set A] { some y: A | y not in x and after y in x }
run { some y: A | p[y] } for exactly 2 A, 1 steps
run { s[B] } for 1 but 3 steps
run { some y: A | t[B - y] } for 2 but 2 steps
run { let y = B | s[y] and before no y } for 1 but 2 steps
