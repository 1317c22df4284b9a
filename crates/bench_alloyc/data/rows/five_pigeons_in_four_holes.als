sig P { h: one H }
sig H {}
fact { all disj a, b: P | a.h != b.h }
run {} for exactly 5 P, exactly 4 H
