sig A {}
fact f { no A }
fact g { some A }
fact h { lone A }
run {} for 2
