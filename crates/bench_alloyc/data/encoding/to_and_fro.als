-- Fields that lead to and fro.
sig A { f: one B }
sig B { f: set A }
run { some a: A | a.f.f = a } for exactly 1 A, exactly 1 B
run { some a: A | a.f.f = a } for 1
run { some a: A | a.f.f = a } for 2 A, 1 B
