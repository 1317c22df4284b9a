sig A { f: set (Int + String) }
fact { "->, " = "->, " }
run {} for 2 but 1 Int
