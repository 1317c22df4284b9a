run { plus[7,1] = -8 }
check { plus[7,1] > 7 }
