one sig T {}
var sig On in T {}
fact { no On always On' = T - On }
run { after after before no On } for 2 steps
