sig A {}
run {} for 16369
