one sig T {} { not (no On and before (some On and before no On)) }
var sig On in T {}
run {} for 2 steps
