open util/ordering[Id]
sig Id {}
sig Node { id: one Id, succ: one Node, var inbox: set Id, var outbox: set Id }
var sig Elected in Node {}
fact identities { all i: Id | lone id.i }
fact ring { all n: Node | Node in n.^succ }
pred start { no Elected no inbox outbox = id }
pred send[n: Node] {
  some i: n.outbox { outbox' = outbox - n->i inbox' = inbox + n.succ->i }
  Elected' = Elected
}
pred process[n: Node] {
  some i: n.inbox {
    inbox' = inbox - n->i
    outbox' = (gt[i, n.id] => outbox + n->i else outbox)
    Elected' = (i = n.id => Elected + n else Elected)
  }
}
pred stutter { outbox' = outbox inbox' = inbox Elected' = Elected }
fact transitions { start always (stutter or some n: Node | send[n] or process[n]) }
pred elect { eventually some Elected }
assert safe { always lone Elected }
run elect for exactly 3 Id, exactly 3 Node, 6 steps
