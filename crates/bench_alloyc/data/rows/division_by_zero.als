run { div[5,0] = -1 and div[-5,0] = 1 and div[0,0] = 0 and rem[5,0] = 5 }
