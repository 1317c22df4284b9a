sig A {}
run { (some A && no A)[] }
