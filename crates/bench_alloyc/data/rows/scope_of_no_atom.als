sig A {}
run { no A } for 0
