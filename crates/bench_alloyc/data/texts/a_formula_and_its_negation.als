sig A {}
run { some A and not some A }
