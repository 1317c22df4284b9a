sig A {}
pred p[x: A] { all y: A | x = y }
run { some y: A | p[y] } for exactly 2 A
