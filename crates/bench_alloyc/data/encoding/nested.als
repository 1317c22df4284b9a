// comprehensions in the scope of other variables: some use these, others don't
sig A { r: set A }
check turned_twice { {a, b: A | b -> a in {c, d: A | d -> c in r}} = r } for 2
check { all x: A | {a: A | a in {b: A | b in x.r}} = x.r } for 2
run { some x: A | #{a: A | a in {b: A | b not in x.r}} = 1 } for exactly 2 A
run { some x: A | some {a: A | a in {b: A | b in x.r} and a in {b: A | b in a.r}} } for exactly 2 A
check { (sum x: A | #{a: A | a in {b: A | b in A.r}}) = (sum x: A | #(A.r)) } for 2 but 4 Int
run { some a: A, b: {c: A | c in {d: A | some d.r}} | a -> b in r } for exactly 2 A
