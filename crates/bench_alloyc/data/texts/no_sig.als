run {} for 9
