pred p[x: q] {}
pred q[x: p] {}
run {}
