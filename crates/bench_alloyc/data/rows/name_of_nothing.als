sig A {}
run { some B }
