sig A {}
pred p[x: p[A]] { some x  no x }
run p
