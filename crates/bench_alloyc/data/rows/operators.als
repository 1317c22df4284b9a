// Each operator of the language with a formula that holds and one that doesn't at the first position of operators.txt.
abstract sig A { r: set A, s: set B }
one sig A0, A1, A2, A3 extends A {}
abstract sig B {}
one sig B0, B1 extends B {}
var sig On in A {}
pred later[x: set A] { after some x & A1 }
fun next_of[x: set A]: set A { x' }
pred same[x: A] { all y: A | x = y }
fact y_union { A0 + A1 + A2 + A3 = A }
fact n_union { A0 + A1 = A }
fact y_difference { A - A0 = A1 + A2 + A3 }
fact n_difference { no A0 - A1 }
fact y_intersection { (A0 + A1) & (A1 + A2) = A1 }
fact n_intersection { some A0 & A1 }
fact y_join { A0.r = A1 }
fact n_join { A3.r = A1 }
fact y_join_of_relations { r.s = A0->B0 + A1->B1 + A2->B1 }
fact n_join_of_relations { r.s = s }
fact y_box { r[A1] = A2 }
fact n_box { r[A1] = A1 }
fact y_override { r ++ A0->A2 = A0->A2 + A1->A2 + A2->A3 }
fact n_override { r ++ A0->A2 = r + A0->A2 }
fact y_left_restriction { A0 <: r = A0->A1 }
fact n_left_restriction { A0 <: r = r }
fact y_right_restriction { r :> A2 = A1->A2 }
fact n_right_restriction { r :> A0 = r }
fact y_product { A0->B = A0->B0 + A0->B1 }
fact n_product { A0->B = A0->B0 }
fact y_transpose { ~r = A1->A0 + A2->A1 + A3->A2 }
fact n_transpose { ~r = r }
fact y_closure_of_three_steps { A0->A3 in ^r }
fact n_closure_has_no_pair_of_itself { A0->A0 in ^r }
fact y_reflexive_closure { A0.*r = A }
fact n_reflexive_closure { A1.*r = A }
fact y_identity { no iden - *r }
fact n_identity { r in iden }
fact y_universe { #univ = 6 }
fact n_universe { #univ = 7 }
fact y_none { no none }
fact n_none { some none }
fact y_inside { A0 in A }
fact n_inside { A in A0 }
fact y_not_inside { A !in A0 }
fact n_not_inside { A0 !in A }
fact y_equal { A0 = A0 }
fact n_equal { A0 = A1 }
fact y_unequal { A0 != A1 }
fact n_unequal { A0 != A0 }
fact y_some { some On }
fact n_some { some On - A0 }
fact y_no { no On - A0 }
fact n_no { no On }
fact y_one { one On }
fact n_one { one A }
fact n_one_of_none { one none }
fact y_lone { lone On }
fact n_lone { lone A }
fact y_multiplicity_one { s in A -> one B }
fact n_multiplicity_one { r in A -> one A }
fact y_multiplicity_lone { r in A lone -> lone A }
fact n_multiplicity_lone { s in A lone -> B }
fact y_multiplicity_some { s in A some -> B }
fact n_multiplicity_some { r in A -> some A }
fact y_multiplicity_of_nested_arrows { A0->B0->A1 + A1->B1->A2 in A -> lone (B -> lone A) }
fact n_multiplicity_of_nested_arrows { A0->B0->A1 + A1->B1->A2 in A -> lone (B -> one A) }
fact y_multiplicity_of_a_set { A0 in one A }
fact n_multiplicity_of_a_set { A0 + A1 in one A }
fact y_not { not no On }
fact n_not { not one On }
fact y_and { one On and one A0 }
fact n_and { one On and one A }
fact y_or { one A or one On }
fact n_or { one A or no On }
fact y_implies { one A implies no On }
fact n_implies { one On implies no On }
fact y_iff { one A iff no On }
fact n_iff { one A iff one On }
fact y_else { one A implies no On else one On }
fact n_else { one On implies no On else one On }
fact y_all { all x: On | x = A0 }
fact n_all { all x: A | x = A0 }
fact y_all_disj { all disj x, y: A | x != y }
fact n_all_of_a_pair { all x, y: A | x != y }
fact y_some_of { some x: A | no x.r }
fact n_some_of { some x: A | x.r = x }
fact y_no_of { no x: A | x.r = x }
fact n_no_of { no x: A | no x.r }
fact y_one_of { one x: A | no x.r }
fact n_one_of { one x: A | some x.r }
fact y_one_of_pairs { one disj x, y: A | x->y in r and y = A3 }
fact n_one_of_pairs { one x, y: A | x = y }
fact y_lone_of { lone x: A | x.r = x }
fact n_lone_of { lone x: A | some x.r }
fact y_comprehension { {x: A | some x.r} = A0 + A1 + A2 }
fact n_comprehension { {x: A | some x.r} = A }
fact y_comprehension_of_pairs { {x, y: A | y in x.r} = r }
fact n_comprehension_of_pairs { {x, y: A | x in y.r} = r }
fact y_let { let x = A0.r | x = A1 }
fact n_let { let x = A0.r | x = A0 }
fact y_let_is_read_where_it_is_used { let x = On | after A1 in x }
fact n_let_is_read_where_it_is_used { let x = On | after x = On - A1 }
fact y_argument_is_read_where_it_is_used { later[On] }
fact n_argument_of_the_same_atoms { later[A0] }
fact y_function { next_of[On] = A0 + A1 }
fact n_function { next_of[On] = On }
fact n_argument_is_not_captured { some y: A | same[y] }
fact y_choice_of_sets { (one On => A0 else A1) = A0 }
fact n_choice_of_sets { (no On => A0 else A1) = A0 }
fact y_integers_equal { #A = 4 }
fact n_integers_equal { #A = 5 }
fact y_less { #B < #A }
fact n_less { #A < #A }
fact y_at_most { #A =< #A }
fact n_at_most { #A =< #B }
fact y_greater { #A > #B }
fact n_greater { #A > #A }
fact y_at_least { #A >= #A }
fact n_at_least { #B >= #A }
fact y_sum_wraps { plus[7,1] = -8 }
fact n_sum_wraps { plus[7,1] > 7 }
fact y_difference_wraps { minus[-8,1] = 7 }
fact n_difference_wraps { minus[-8,1] < -8 }
fact y_product_wraps { mul[5,5] = -7 }
fact n_product_wraps { mul[5,5] = 7 }
fact y_quotient { div[7,2] = 3 }
fact y_quotient_of_a_negative { div[-7,2] = -3 }
fact n_quotient_of_a_negative { div[-7,2] = -4 }
fact y_quotient_by_a_negative { div[7,-2] = -3 }
fact y_quotient_of_negatives { div[-7,-2] = 3 }
fact y_quotient_wraps { div[-8,-1] = -8 }
fact y_quotient_by_zero { div[5,0] = -1 and div[-5,0] = 1 and div[0,0] = 0 }
fact n_quotient_by_zero { div[5,0] = 0 }
fact y_remainder { rem[7,2] = 1 }
fact y_remainder_of_a_negative { rem[-7,2] = -1 }
fact n_remainder_of_a_negative { rem[-7,2] = 1 }
fact y_remainder_by_a_negative { rem[7,-2] = 1 }
fact y_remainder_of_negatives { rem[-7,-2] = -1 }
fact y_remainder_by_zero { rem[5,0] = 5 }
fact y_set_as_a_sum { plus[{i: Int | i = 1 or i = 2}, 0] = 3 }
fact n_set_as_its_first_member { plus[{i: Int | i = 1 or i = 2}, 0] = 1 }
fact y_sum_of_values_wraps { (sum x: A | 3) = -4 }
fact n_sum_of_values_wraps { (sum x: A | 3) = 3 }
fact y_after { after A1 in On }
fact n_after { after no On }
fact y_always { always A2 !in On }
fact n_always { always some On }
fact y_eventually { eventually no On }
fact n_eventually { eventually A2 in On }
fact y_before { after before A0 in On }
fact n_before_the_start { before some univ }
fact y_historically { after historically A0 in On }
fact n_historically { after after historically some On }
fact y_once { after after once A1 in On }
fact n_once { after once no On }
fact y_until { some On until no On }
fact n_until { A1 in On until no On }
fact y_releases { A1 in On releases A0 in On }
fact n_releases { no On releases some On }
fact y_since { after after (no On since A1 in On) }
fact n_since { after (no On since A1 !in On) }
fact y_triggered { after (A0 in On triggered A1 in On) }
fact n_triggered { after after (A1 in On triggered some On) }
fact y_then { one On ; some On }
fact n_then { one On ; one On }
fact y_prime { On' = A0 + A1 }
fact n_prime { On' = On }
fact y_past_is_seen { after after (no On and before (A1 in On and before one On)) }
fact n_past_is_not_that_of_the_first_pass { after after after after (no On and before (A1 in On and before one On)) }
fact y_second_pass { after after after after (no On and before (A1 in On and before no On)) }
fact n_second_pass { after after (no On and before (A1 in On and before no On)) }
run {} for 4 but 3 steps
