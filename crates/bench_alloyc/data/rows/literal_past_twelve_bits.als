run { 2048 = 2048 } for 12 Int
