run {} for 9 Int
