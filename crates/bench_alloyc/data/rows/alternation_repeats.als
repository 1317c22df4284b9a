one sig T {}
var sig On in T {}
fact { no On always On' = T - On }
run {} for 2 steps
