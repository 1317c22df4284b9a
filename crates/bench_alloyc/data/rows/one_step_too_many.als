run {} for 33 steps
