-- Fields whose values are apart.
sig A { disj f, g: set B, h: disj set B }
sig B {}
run {} for 1 but 2 B
run {} for 2 but 1 B
run { some f and some g } for 2 but 1 B
