sig A {}
run { no A and some A } for 2
