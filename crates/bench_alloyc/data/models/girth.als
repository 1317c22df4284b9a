// The Petersen graph on ten named nodes: its shortest circle has five edges.
abstract sig Node { linked: set Node }
one sig O0, O1, O2, O3, O4, I0, I1, I2, I3, I4 extends Node {}

fun edges: Node -> Node {
  O0->O1 + O1->O2 + O2->O3 + O3->O4 + O4->O0
  + I0->I2 + I2->I4 + I4->I1 + I1->I3 + I3->I0
  + O0->I0 + O1->I1 + O2->I2 + O3->I3 + O4->I4
}

fact { linked = edges + ~edges }

// each node has three neighbours
assert cubic { all n: Node | #n.linked = 3 }
// no circle of three or four edges
assert no_triangle { no disj a, b, c: Node | b in a.linked and c in b.linked and a in c.linked }
assert no_square {
  no disj a, b, c, d: Node | b in a.linked and c in b.linked and d in c.linked and a in d.linked
}
// but one of five
pred circle_of_five {
  some disj a, b, c, d, e: Node |
    b in a.linked and c in b.linked and d in c.linked and e in d.linked and a in e.linked
}
// whatever two nodes, two steps are enough
assert two_steps { all a, b: Node | b in a + a.linked + a.linked.linked }

check cubic for 10 but 4 int
check no_triangle for 10
check no_square for 10
check two_steps for 10
run circle_of_five for 10
