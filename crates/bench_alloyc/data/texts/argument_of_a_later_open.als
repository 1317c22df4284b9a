open b[C]
open c
