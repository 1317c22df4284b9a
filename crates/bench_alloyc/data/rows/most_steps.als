run {} for 32 steps
