run { 15 = 15 } for 3 but 5 int
