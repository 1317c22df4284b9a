sig A {}
fact f { lone A }
run { no A and some A }
