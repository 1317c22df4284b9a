// A configuration with names: strings are atoms that are equal or not.

abstract sig Protocol {}
one sig Http, Https extends Protocol {}
sig Service { name: one String, speaks: one Protocol, calls: set Service }

pred well_formed {
  all disj a, b: Service | a.name != b.name
  all s: Service | s.name in "web" + "shop" + "mail"
  no s: Service | s in s.^calls
  all s: Service | s.name = "web" implies s.speaks = Https
}

// Command 0: a configuration in which the shop calls the mailer.
// Answer: a trace, status 10. It has a line for String.
run { well_formed   some a, b: Service | a.name = "shop" and b.name = "mail" and b in a.calls } for 3

// Command 1: four services with these three names.
// Answer: "none states 1", status 20.
run { well_formed } for exactly 4 Service

// Command 2: every service that is called is called by https only.
// Answer: a trace, status 10.
check { well_formed implies all s: Service | s.calls.speaks in Https } for 3

// Command 3: a service named "web" isn't called by another of that name.
// Answer: "none states 1", status 20.
check { well_formed implies all a, b: Service | a.name = "web" and b.name = "web" implies b not in a.calls } for 3
