sig A {}
run { some s: set A | no s }
