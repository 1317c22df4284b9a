run { some String }
