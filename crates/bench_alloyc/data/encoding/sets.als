-- Operators on sets and relations, and quantifiers, over two atoms.
sig A { r: set A }
pred p[s: set A] { some s.r }
pred q[t: A->A] { t in r or no t }
fun f[s: set A]: set A { s.r - (A - s) }
run { some r } for 2
run { no r } for 2
run { one r } for 2
run { lone r } for 2
run { some r + A->A } for 2
run { r = A->A } for 2
run { r in A->A } for 2
run { A->A in r } for 2
run { r != iden } for 2
run { iden & (A->A) in r } for 2
run { r - iden = none->none } for 2
run { r & ~r = r } for 2
run { ~r in r } for 2
run { some a: A | a.r = A } for 2
run { all a: A | some a.r } for 2
run { all a, b: A | a->b in r iff b->a in r } for 2
run { all disj a, b: A | a->b in r } for 2
run { some disj a, b: A | a->b in r and b->a in r } for 2
run { no a: A | a in a.r } for 2
run { one a: A | a->a in r } for 2
run { lone a: A | some a.r } for 2
run { one a, b: A | a->b in r } for 2
run { lone disj a, b: A | a->b in r } for 2
run { some a: A | a in r.a } for 2
run { all s: one A | some s.r } for 2
run { no a: A, b: a.r | b = a } for 2
run { ^r = r } for 2
run { *r = A->A + iden } for 2
run { ^r & iden in none->none } for 2
run { r.r in r } for 2
run { A.r = A } for 2
run { r.A != A } for 2
run { A <: r = r } for 2
run { (A - A.r) <: r = none->none } for 2
run { r :> A.r = r } for 2
run { r ++ iden = iden } for 2
run { r ++ (A->A.r) in r } for 2
run { univ.r in A } for 2
run { some univ - A } for 2
run { { a: A | a->a in r } = A } for 2
run { { a, b: A | b in a.r } = ~r } for 2
run { { a: A | some b: A | b in a.r } in r.A } for 2
run { (some r implies r else A->A) = A->A } for 2
run { let s = r.r | s in r } for 2
run { let a = A.r, b = a.r | a = b } for 2
run { #r = 2 } for 2
run { #r > #A } for 2
run { #A.r < 2 } for 2
run { #(r & iden) = #A } for 2
run { some a: A | #a.r = 2 } for 2
run { (sum a: A | #a.r) = 1 } for 2
run { (sum a: A | #a.r) = #r } for 2
run { some r or no A } for 2
run { some r and not A in A.r } for 2
run { some r => some A else no A } for 2
run { some r <=> some A.r } for 2
run { not (some r and no r) } for 2
run { A = none or some r } for 2
run { some (A->A) & r } for 2
run { r in A one->one A or no A } for 2
run { r in A one->one A } for 2
run { r in A lone->some A } for 2
run { r in A some->lone A } for 2
run { r in A->one A } for 2
run { r in A set->set A } for 2
run { r in A lone->lone A } for 2
run { p[A] } for 2
run { q[r] } for 2
run { f[A] = A } for 2
run { A.f = A } for 2
run { f[f[A]] in A } for 2
run { some a: A | p[a] and q[a->a] } for 2
run { all x: A | let r2 = x->x | r2 in r } for 2
run { some x: A | all y: A | x = y } for 2
run { all x: A | some y: A | p[y] and x != y } for 2
run { always some r } for 2
run { eventually no r } for 2
run { before some r } for 2
run { historically some r } for 2
run { some r until no A } for 2
