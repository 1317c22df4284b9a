-- An enumeration, which has an order.
enum Color { Red }
var sig On in Color {}
run {} for 1 but 1 steps
run { On = Red } for 1 but 1 steps
run { no On until On = Red } for 1 but 2 steps
run { always (On' = Color - On and no On.next) } for 1 but 3 steps
