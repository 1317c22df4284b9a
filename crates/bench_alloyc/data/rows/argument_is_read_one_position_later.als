one sig T {}
var sig On in T {}
fact { no On always On' = T - On }
pred p[s: set T] { after some s }
run { p[On] } for 2 steps
