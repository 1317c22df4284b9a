run { rem[-7,2] = -1 }
