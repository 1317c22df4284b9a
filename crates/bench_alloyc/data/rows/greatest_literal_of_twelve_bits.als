run { 2047 = 2047 } for 12 Int
