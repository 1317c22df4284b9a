-- String literals.
one sig F { name: lone String }
run { some F.name }
run { F.name = "b" and "a" != "b" }
run { F.name in "a" + "c" }
run { no F.name iff some String }
