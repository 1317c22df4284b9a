open b as x
open b as x
