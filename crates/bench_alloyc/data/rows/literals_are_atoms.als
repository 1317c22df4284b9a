sig F { name: one String }
run { some f: F | f.name = "b" and "a" != "b" } for exactly 1 F
