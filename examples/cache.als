// A temporal property with a counterexample, and the rule that mends it: clients cache a server's value.

sig Value {}
one sig Server { var value: one Value }
sig Client { var cache: lone Value }

pred fetch[c: Client] { cache' = cache - c->Value + c->Server.value   value' = value }
pred drop[c: Client] { cache' = cache - c->Value   value' = value }
pred write_blindly { Server.value' != Server.value   cache' = cache }
pred write_carefully { Server.value' != Server.value   no cache' }
pred idle { value' = value   cache' = cache }

pred common { idle or some c: Client | fetch[c] or drop[c] }
pred careless { no cache   always (common or write_blindly) }
pred careful { no cache   always (common or write_carefully) }

pred fresh { all c: Client | c.cache in Server.value }

// Command 0: a value is written while somebody has one in the cache.
// Answer: a trace, status 10.
run { careful and eventually (some cache ; no cache) } for 2 but 4 steps

// Command 1: nobody has an old value.
// Answer: a trace, status 10. "alloyc least" shows the shortest: 3 states.
check { careless implies always fresh } for 2 but 4 steps

// Command 2: with careful writes.
// Answer: "none states 8", status 20.
check { careful implies always fresh } for 2 but 8 steps

// Command 3: even the careless server gave each client only values that it once had.
// Answer: "none states 6", status 20. "once" looks back, so it also sees the first pass of the loop.
check { careless implies always all c: Client | all v: c.cache | once v = Server.value } for 2 but 6 steps
