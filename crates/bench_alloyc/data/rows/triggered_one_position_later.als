one sig T {}
var sig On in T {}
fact { no On always On' = T - On }
run { after (some On triggered some T) } for 2 steps
