sig A { f: A }
sig D in B { f: A }
sig B in B + A {}