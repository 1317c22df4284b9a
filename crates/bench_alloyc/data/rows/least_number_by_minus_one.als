run { div[-8,-1] = -8 and rem[-8,-1] = 0 }
