run {} for 13 Int
