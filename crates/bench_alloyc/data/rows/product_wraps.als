run { mul[5,5] = -7 }
