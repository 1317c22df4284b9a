// `On` has no member, then one, then two, and from there on the last two in turn. A fact with `;` says one position after the other.
sig T { next: set T }
var sig On in T {}
fact some_of_a_set { not (some On) ; (some On) ; (some On) ; (some On) ; (some On) ; (some On) }
fact no_of_a_set { (no On) ; not (no On) ; not (no On) ; not (no On) ; not (no On) ; not (no On) }
fact one_of_a_set { not (one On) ; (one On) ; not (one On) ; (one On) ; not (one On) ; (one On) }
fact lone_of_a_set { (lone On) ; (lone On) ; not (lone On) ; (lone On) ; not (lone On) ; (lone On) }
fact after_of_a_test { (after one On) ; not (after one On) ; (after one On) ; not (after one On) ; (after one On) ; not (after one On) }
fact always_of_a_test { not (always some On) ; (always some On) ; (always some On) ; (always some On) ; (always some On) ; (always some On) }
fact eventually_of_a_test { (eventually no On) ; not (eventually no On) ; not (eventually no On) ; not (eventually no On) ; not (eventually no On) ; not (eventually no On) }
fact before_of_a_test { not (before one On) ; not (before one On) ; (before one On) ; not (before one On) ; (before one On) ; not (before one On) }
fact historically_of_a_test { (historically lone On) ; (historically lone On) ; not (historically lone On) ; not (historically lone On) ; not (historically lone On) ; not (historically lone On) }
fact once_of_a_test { not (once one On) ; (once one On) ; (once one On) ; (once one On) ; (once one On) ; (once one On) }
fact until_of_two_tests { (no On until one On) ; (no On until one On) ; not (no On until one On) ; (no On until one On) ; not (no On until one On) ; (no On until one On) }
fact releases_of_two_tests { (one On releases lone On) ; (one On releases lone On) ; not (one On releases lone On) ; (one On releases lone On) ; not (one On releases lone On) ; (one On releases lone On) }
fact since_of_two_tests { (one On since no On) ; (one On since no On) ; not (one On since no On) ; not (one On since no On) ; not (one On since no On) ; not (one On since no On) }
fact triggered_of_two_tests { not (one On triggered some On) ; (one On triggered some On) ; (one On triggered some On) ; (one On triggered some On) ; (one On triggered some On) ; (one On triggered some On) }
fact then_of_two_tests { (no On ; one On) ; not (no On ; one On) ; not (no On ; one On) ; not (no On ; one On) ; not (no On ; one On) ; not (no On ; one On) }
fact or_false_false { not (some On or some On) }
fact or_false_true { some On or no On }
fact or_true_false { no On or some On }
fact or_true_true { no On or no On }
fact implies_false_false { some On implies some On }
fact implies_false_true { some On implies no On }
fact implies_true_false { not (no On implies some On) }
fact implies_true_true { no On implies no On }
fact iff_false_false { some On iff some On }
fact iff_false_true { not (some On iff no On) }
fact iff_true_false { not (no On iff some On) }
fact iff_true_true { no On iff no On }
fact not_false { not some On }
fact and_false_false { not (some On and some On) }
fact else_false_false { some On implies some On else no On }
fact and_false_true { not (some On and no On) }
fact else_false_true { not (some On implies no On else some On) }
fact not_true { not (not no On) }
fact and_true_false { not (no On and some On) }
fact else_true_false { not (no On implies some On else no On) }
fact and_true_true { no On and no On }
fact else_true_true { no On implies no On else some On }
fact some_member { not (some x: T | x in On) ; (some x: T | x in On) ; (some x: T | x in On) ; (some x: T | x in On) }
fact some_pair { not (some disj x, y: On | x in On) ; not (some disj x, y: On | x in On) ; (some disj x, y: On | x in On) ; not (some disj x, y: On | x in On) }
fact no_member { (no x: T | x in On) ; not (no x: T | x in On) ; not (no x: T | x in On) ; not (no x: T | x in On) }
fact no_pair { (no disj x, y: On | x in On) ; (no disj x, y: On | x in On) ; not (no disj x, y: On | x in On) ; (no disj x, y: On | x in On) }
fact one_member { not (one x: T | x in On) ; (one x: T | x in On) ; not (one x: T | x in On) ; (one x: T | x in On) }
fact one_pair { not (one disj x, y: On | x in On) ; not (one disj x, y: On | x in On) ; not (one disj x, y: On | x in On) ; not (one disj x, y: On | x in On) }
fact lone_member { (lone x: T | x in On) ; (lone x: T | x in On) ; not (lone x: T | x in On) ; (lone x: T | x in On) }
fact lone_pair { (lone disj x, y: On | x in On) ; (lone disj x, y: On | x in On) ; not (lone disj x, y: On | x in On) ; (lone disj x, y: On | x in On) }
fact all_members { not (all x: T | x in On) ; not (all x: T | x in On) ; not (all x: T | x in On) ; not (all x: T | x in On) }
fact all_members_are_first { (all x: On | no next.x) ; (all x: On | no next.x) ; not (all x: On | no next.x) ; (all x: On | no next.x) }
fact name_is_read_where_it_is_used { (let x = On | no x and after one x) ; not (let x = On | no x and after one x) ; not (let x = On | no x and after one x) ; not (let x = On | no x and after one x) }
fact inside_of_the_next_state { (On in On') ; (On in On') ; not (On in On') ; (On in On') }
fact equal_sets { not (T = On) ; not (T = On) ; not (T = On) ; not (T = On) }
fact in_one { not (On in one T) ; (On in one T) ; not (On in one T) ; (On in one T) }
fact in_lone { (On in lone T) ; (On in lone T) ; not (On in lone T) ; (On in lone T) }
fact in_some { not (On in some T) ; (On in some T) ; (On in some T) ; (On in some T) }
fact greater_set_inside { not (T in On) ; not (T in On) ; not (T in On) }
fact arrow_set_set { next in T set -> set T }
fact arrow_set_lone { next in T set -> lone T }
fact arrow_set_one { not (next in T set -> one T) }
fact arrow_set_some { not (next in T set -> some T) }
fact arrow_lone_set { next in T lone -> set T }
fact arrow_one_set { not (next in T one -> set T) }
fact arrow_some_set { not (next in T some -> set T) }
fact arrow_behind_set_lone { after after On->next in T -> (T set -> lone T) }
fact arrow_before_set_lone { after after On->next in (T set -> lone T) -> T }
fact arrow_behind_set_one { not (after after On->next in T -> (T set -> one T)) }
fact arrow_before_set_one { not (after after On->next in (T set -> one T) -> T) }
fact arrow_behind_lone_set { after after On->next in T -> (T lone -> set T) }
fact arrow_before_lone_set { not (after after On->next in (T lone -> set T) -> T) }
fact equal_integers { not (-1 = 2) and 2 = 2 and not (2 = -1) }
fact less { -1 < 2 and not (2 < 2) and not (2 < -1) }
fact at_most { -1 =< 2 and 2 =< 2 and not (2 =< -1) }
fact greater { not (-1 > 2) and not (2 > 2) and 2 > -1 }
fact at_least { not (-1 >= 2) and 2 >= 2 and 2 >= -1 }
fact sum_of_threes_wraps { (sum x: T | 3) = -7 }
run {} for 3 but 3 steps
