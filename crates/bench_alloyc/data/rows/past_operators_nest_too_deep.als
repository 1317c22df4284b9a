sig A { f: set { x: A | once once once once once once once once once some A } }
run {}
