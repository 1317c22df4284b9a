// A temporal property that holds: two roads cross, and their lights are never green at once.

abstract sig Colour {}
one sig Red, Green, Amber extends Colour {}
abstract sig Light { var shows: one Colour }
one sig North, East extends Light {}

fun other[l: Light]: Light { Light - l }

pred go[l: Light] { l.shows = Red and other[l].shows = Red   shows' = shows ++ l->Green }
pred slow[l: Light] { l.shows = Green   shows' = shows ++ l->Amber }
pred stop[l: Light] { l.shows = Amber   shows' = shows ++ l->Red }
pred stay { shows' = shows }

fact behaviour {
  Light.shows = Red
  always (stay or some l: Light | go[l] or slow[l] or stop[l])
}

// Command 0: both roads get green, again and again.
// Answer: a trace, status 10. "alloyc least" finds it with 6 states.
run { all l: Light | always eventually l.shows = Green } for 8 steps

// Command 1: never both green or amber.
// Answer: "none states 10" with a refutation, status 20.
assert safe { always some l: Light | l.shows = Red }
check safe for 10 steps

// Command 2: green is followed by amber before red.
// Answer: "none states 8", status 20. The left side of "releases" ends the duty of the right side.
assert orderly { always all l: Light | l.shows = Green implies (l.shows = Amber releases l.shows != Red) }
check orderly for 8 steps

// Command 3: whoever waits gets green.
// Answer: a trace, status 10. The other road may take every turn.
assert served { always all l: Light | l.shows = Red implies eventually l.shows = Green }
check served for 6 steps
