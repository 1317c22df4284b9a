sig A {}
run { some A } for 1
