module c[x]
open d
open b
