sig A {}
run { some A } for 0
