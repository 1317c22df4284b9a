// An access rule: users have roles, roles inherit from roles and grant permissions.
// Nobody may both request and approve a payment.

sig User { roles: set Role }
sig Role { inherits: set Role, grants: set Permission }
abstract sig Permission {}
one sig Request, Approve extends Permission {}
sig Other extends Permission {}

fact hierarchy { no r: Role | r in r.^inherits }

fun permitted[u: User]: set Permission { u.roles.*inherits.grants }

pred both[ps: set Permission] { Request + Approve in ps }

// Command 0: somebody may request, somebody else may approve.
// Answer: a trace, status 10.
run { some disj u, v: User | Request in permitted[u] and Approve in permitted[v] and not both[permitted[u]] } for 3

// First try: no single role grants both.
pred roles_separated { no r: Role | both[r.grants] }

// Command 1: is that enough?
// Answer: a trace, status 10. Two roles, or one that inherits, give a user both.
check { roles_separated implies no u: User | both[permitted[u]] } for 3

// Second try: look at what a role grants with all that it inherits.
pred inherited_separated { no r: Role | both[r.*inherits.grants] }

// Command 2: is that enough?
// Answer: a trace, status 10. A user may have two roles.
check { inherited_separated implies no u: User | both[permitted[u]] } for 3

// Third try: also, nobody has one role on each side.
pred users_separated {
  inherited_separated
  no u: User, disj r, s: u.roles | Request in r.*inherits.grants and Approve in s.*inherits.grants
}

// Command 3: with that rule too.
// Answer: "none states 1" with a refutation, status 20.
check { users_separated implies no u: User | both[permitted[u]] } for 4
