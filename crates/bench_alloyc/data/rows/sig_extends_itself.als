sig A extends A {}
run {}
