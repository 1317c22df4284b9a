sig A {}
run { #A = 8 } for exactly 8 A
