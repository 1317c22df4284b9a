abstract sig Light {}
one sig Red, Green extends Light {}
sig Lit in Light {}
var sig Seen in Light {}
run { Lit = Red and eventually Seen = Green } for 3 but 3 steps
check { Red in Lit or Green in Lit or no Lit } for 3
check { no Red & Lit or no Green & Lit } for 3
check { always Seen in Red + Green } for 3 but 2 steps
