run { 8 = 8 }
