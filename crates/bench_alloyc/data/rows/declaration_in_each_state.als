sig T {}
var one sig On in T {}
var sig Off in T {}
run {} for 1 but 2 steps
