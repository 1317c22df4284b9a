// A protocol: a token goes round a ring of processes, and whoever holds it may work.
// Can two work at once? Is everybody sure to get a turn?

sig Process { succ: one Process }
one sig Token { var holder: one Process }
var sig Working in Process {}

fact ring { all p: Process | Process in p.^succ }

pred begin[p: Process] { p = Token.holder and p not in Working   Working' = Working + p   holder' = holder }
pred finish[p: Process] { p in Working   Working' = Working - p   holder' = holder }
pred pass { Token.holder not in Working   Working' = Working   Token.holder' = Token.holder.succ }
pred wait { Working' = Working   holder' = holder }

fact behaviour {
  no Working
  always (wait or pass or some p: Process | begin[p] or finish[p])
}

// Command 0: everybody works at some time.
// Answer: a trace, status 10.
everyone: run { all p: Process | eventually p in Working } for exactly 3 Process, 10 steps

// Command 1: never two at once.
// Answer: "none states 8" with a refutation, status 20. No ring of up to 4 breaks it within 8 states.
assert exclusive { always lone Working }
check exclusive for 4 Process, 8 steps

// Command 2: everybody is sure to work.
// Answer: a trace, status 10. A counterexample: nothing forbids to wait for ever.
assert turns { all p: Process | eventually p in Working }
check turns for 3 Process, 6 steps

// Command 3: the same, where the token is passed again and again.
// Answer: a trace, status 10. Passing on without working is still allowed.
pred lively { always eventually pass }
check { lively implies all p: Process | eventually p in Working } for 3 Process, 6 steps

// Command 4: but then the token comes to everybody.
// Answer: "none states 7", status 20.
check { lively implies all p: Process | always eventually p = Token.holder } for 3 Process, 7 steps
