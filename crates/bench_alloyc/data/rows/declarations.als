// Declarations of every kind; the traces of declarations_*.txt break one each.
abstract sig P {
  f: lone Q,
  g: disj set Q,
  disj h, k: set R,
  m: Q lone -> some R
}
sig C1, C2 extends P {}
sig Q, R {}
lone sig L extends R {}
sig U in Q + R {}
run {} for 3
