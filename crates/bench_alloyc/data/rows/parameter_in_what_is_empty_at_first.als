one sig T {}
var sig On in T {}
fact { no On always On' = T - On }
pred p[s: some On] {}
run p for 2 steps
