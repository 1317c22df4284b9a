sig P { h: one H }
sig H {}
fact { all disj a, b: P | a.h != b.h }
run {} for exactly 4 P, exactly 3 H
