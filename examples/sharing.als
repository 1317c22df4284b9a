// An access rule in time: owners share documents and take the right back.

sig User {}
sig Document { owner: one User, var readers: set User }

pred share[d: Document, u: User] { u != d.owner   readers' = readers + d->u }
pred revoke[d: Document, u: User] { u in d.readers   readers' = readers - d->u }
pred idle { readers' = readers }

fact behaviour {
  no readers
  always (idle or some d: Document, u: User | share[d, u] or revoke[d, u])
}

fun may_read[d: Document]: set User { d.owner + d.readers }

// Command 0: somebody may read, later not, and later again.
// Answer: a trace, status 10.
run { some d: Document | eventually (some d.readers ; no d.readers ; some d.readers) } for 2 but 5 steps

// Command 1: whoever may read owns the document, or it was shared with them and not revoked since.
// Answer: "none states 6", status 20.
assert reason {
  always all d: Document, u: may_read[d] |
    u = d.owner or before (not revoke[d, u] since share[d, u])
}
check reason for 2 but 6 steps

// Command 2: after a revocation a user never reads again.
// Answer: a trace, status 10. It may be shared a second time.
check { all d: Document, u: User | always (revoke[d, u] implies after always u not in d.readers) } for 2 but 5 steps

// Command 3: the owner can't be locked out.
// Answer: "none states 5", status 20.
check { always all d: Document | d.owner in may_read[d] } for 2 but 5 steps
