sig A {}
run { some A and }
