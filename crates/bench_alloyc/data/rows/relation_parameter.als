one sig A, B {}
pred p[r: A -> one B] {}
run p
