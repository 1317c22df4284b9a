// The sigs of switches.als alone.
sig T { next: set T }
var sig On in T {}
run {} for 3 but 3 steps
