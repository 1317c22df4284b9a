sig A {}
run {} for 16368
