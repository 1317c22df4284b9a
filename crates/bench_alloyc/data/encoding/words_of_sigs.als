-- Words before sigs, with and without exact numbers.
sig B {}
one sig F in B {}
lone sig L {}
some sig S {}
one sig O {}
run {} for 2
run { no L } for 1
run { some B - F and some L } for 2
run { some s: S | s not in S } for 2
run {} for exactly 2 B, exactly 1 S
