sig A { f: one B }
sig B { f: set A }
run { some a: A | a.f.f = a } for exactly 1 A, exactly 1 B
