-- Multiplicities of arrows in fields.
sig A { f: B lone -> one B, g: B -> lone A }
sig B {}
run {} for 1 but 2 B
run { some f } for 1 but 2 B
run { some g } for 1
