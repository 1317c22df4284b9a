-- A switch that alternates.
one sig T {}
var sig On in T {}
fact { no On always On' = T - On }
pred p[s: set T] { after some s }
run {} for 1 steps
run {} for 2 steps
run {} for 3 steps
run { always no On } for 2 steps
run { p[On] } for 2 steps
run { eventually (no On and once some On) } for 2 steps
run { eventually (no On and once (some On and once (no On and once some On))) } for 2 steps
run { no On ; some On } for 2 steps
run { after after before no On } for 2 steps
run { after (some On triggered some T) } for 2 steps
