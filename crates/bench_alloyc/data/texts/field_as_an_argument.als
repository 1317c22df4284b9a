open b[f]
sig A { f: A }
