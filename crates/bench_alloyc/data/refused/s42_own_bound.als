sig A {}
pred p[x: p] { some x  some A  no A }
run p
