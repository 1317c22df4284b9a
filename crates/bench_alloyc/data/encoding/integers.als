-- Integers of two bits.
open util/integer
one sig N { v, w: lone Int }
run { N.v = 1 } for 1 but 2 Int
run { N.v > 0 } for 1 but 2 Int
run { N.v < N.w } for 1 but 2 Int
run { N.v =< N.w } for 1 but 2 Int
run { N.v >= -1 } for 1 but 2 Int
run { plus[N.v, N.w] = 0 } for 1 but 2 Int
run { minus[N.v, N.w] = 1 } for 1 but 2 Int
run { mul[N.v, N.w] = -2 } for 1 but 2 Int
run { div[N.v, N.w] = 1 } for 1 but 2 Int
run { rem[N.v, N.w] = 1 } for 1 but 2 Int
run { #N.v = 1 } for 1 but 2 Int
run { N.v = #N } for 1 but 2 Int
run { N.v + N.w = Int } for 1 but 2 Int
run { N.v = negate[N.w] } for 1 but 2 Int
run { some i: Int | i = N.v and i < N.w } for 1 but 2 Int
run { all i: Int | i = N.v or i != N.v } for 1 but 2 Int
run { (sum i: N.v + N.w | i) = 1 } for 1 but 2 Int
run { some N.v & N.w } for 1 but 2 Int
run { N.v in 0 + 1 } for 1 but 2 Int
run { plus[N.v, 1] > N.v } for 1 but 2 Int
run { some iden & (N.v -> N.w) } for 1 but 2 Int
run { N.v != N.w and N.v not in 1 } for 1 but 2 Int
run { (some N.v implies 1 else 0) = 1 } for 1 but 2 Int
run { some i: N.v | plus[i, i] = 0 } for 1 but 2 Int
