-- Abstract sigs, children and subsets.
abstract sig A {}
sig B, C extends A {}
sig D in A + E {}
sig E {}
run {} for 2 but 1 E
run { some D & E } for 1
run { some B and some C } for 2 but 1 E
run {} for 2 but exactly 1 B, 1 E
run { no E } for 1
