one sig T {}
var sig On in T {}
fact { no On always On' = T - On }
run { eventually (no On and once (some On and once (no On and once some On))) } for 2 steps
