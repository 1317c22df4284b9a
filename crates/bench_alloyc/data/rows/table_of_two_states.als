one sig T {}
var sig On in T {}
fact { no On always On' = T - On }
run { always no On } for 2 steps
