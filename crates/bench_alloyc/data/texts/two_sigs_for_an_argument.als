open b[A]
sig A, A {}
