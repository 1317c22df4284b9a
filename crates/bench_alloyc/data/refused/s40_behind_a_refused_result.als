fun f: g { zz }
sig A { g: yy }
run {}
