// A command may ask for a whole relation: parameters of the predicate that is run.

sig Task { needs: set Skill, after_task: set Task }
sig Person { has: set Skill }
sig Skill {}

fact no_cycle { no t: Task | t in t.^after_task }

// Each task gets one person who has what it needs; nobody gets more than one.
pred assign[who: Task lone -> one Person] {
  all t: Task | t.needs in t.who.has
}

// Command 0: an assignment for three tasks that need something.
// Answer: a trace, status 10, with the line "$who = .." in it.
run assign for exactly 3 Task, 3 Person, 2 Skill

// Command 1: one in which nobody knows everything.
// Answer: a trace, status 10.
pred assign_specialists[who: Task lone -> one Person] {
  assign[who]
  all t: Task | some t.needs
  no p: Person | p.has = Skill
}
run assign_specialists for exactly 3 Task, 3 Person, 2 Skill

// Command 2: three tasks and two people.
// Answer: "none states 1", status 20: "lone" allows a person one task.
run assign for exactly 3 Task, 2 Person, 2 Skill

// Command 3: a schedule in which each task comes after those that it waits for.
// Answer: a trace, status 10.
pred schedule[s: Task -> Task] {
  after_task in s
  all t: Task | t not in t.s
  all disj t, u: Task | t->u in s + ~s
  s.s in s
}
run schedule for exactly 3 Task, 1 Person, 1 Skill
