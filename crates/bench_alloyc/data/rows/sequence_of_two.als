one sig T {}
var sig On in T {}
fact { no On always On' = T - On }
run { no On ; some On } for 2 steps
