// A data design: customers, orders, invoices. Which rules do the multiplicities say, and which are missing?

sig Customer {}
sig Product {}
sig Line { item: one Product }
sig Order { by: one Customer, lines: some Line }
sig Invoice { bills: one Customer, covers: some Order }

fact lines_are_owned { all l: Line | one lines.l }
fact billed_once { all o: Order | lone covers.o }

// Command 0: an invoice over two orders, of which one has two lines for the same product.
// Answer: a trace, status 10.
run {
  some i: Invoice, o: i.covers | #i.covers = 2 and some disj k, l: o.lines | k.item = l.item
} for 3

// Command 1: an invoice bills the customer who ordered.
// Answer: a trace, status 10. The design forgot to say so.
check { all i: Invoice | i.covers.by = i.bills } for 3

pred right_customer { all i: Invoice, o: i.covers | o.by = i.bills }

// Command 2: with that rule.
// Answer: "none states 1", status 20.
check { right_customer implies all i: Invoice | i.covers.by = i.bills } for 4

// Command 3: two invoices never share a line.
// Answer: "none states 1", status 20. It follows from the two facts.
check { no disj i, j: Invoice | some i.covers.lines & j.covers.lines } for 4

// Command 4: can there be an order with more lines than there are products?
// Answer: a trace, status 10.
run { some o: Order | #o.lines > #Product } for 3
