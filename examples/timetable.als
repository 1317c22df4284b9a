// Too many wishes: mode "core" names the facts that can't all be met, and leaves out those that aren't to blame.

abstract sig Exam { slot: one Slot, room: one Room }
one sig Maths, Physics, Chemistry extends Exam {}
abstract sig Student { takes: set Exam }
one sig Ann, Ben, Cat extends Student {}
sig Slot {}
one sig Morning extends Slot {}
sig Room {}

fact ann { Ann.takes = Maths + Physics }
fact ben { Ben.takes = Physics + Chemistry }
fact cat { Cat.takes = Chemistry + Maths }
fact no_clash { all s: Student, disj e, f: s.takes | e.slot != f.slot }
fact one_place { all disj e, f: Exam | e.slot = f.slot implies e.room != f.room }
fact early { Maths.slot = Morning }

// Command 0: two slots, two rooms.
// Answer: "none states 1", status 20. "alloyc core examples/timetable.als --part answer" says why:
//   core states 1 facts 4
//   fact examples/timetable.als 11:1 ann
//   fact examples/timetable.als 12:1 ben
//   fact examples/timetable.als 13:1 cat
//   fact examples/timetable.als 14:1 no_clash
run two_slots {} for 2 Slot, 2 Room

// Command 1: a third slot.
// Answer: a trace, status 10.
run three_slots {} for 3 Slot, 1 Room

// Command 2: then no two exams are at one time, in however many rooms.
// Answer: "none states 1", status 20.
check { all disj e, f: Exam | e.slot != f.slot } for 3 Slot, 4 Room

// Command 3: can Chemistry be in the morning?
// Answer: "none states 1", status 20. "--command 3" with mode "core" keeps cat, no_clash and early.
run { Chemistry.slot = Morning } for 3 Slot, 4 Room
