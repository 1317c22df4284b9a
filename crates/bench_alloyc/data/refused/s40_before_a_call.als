sig A {}
pred q[y: { z: A | p[z] }] {}
pred p[x: zz] {}
run {}
