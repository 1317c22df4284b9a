sig A {}
sig A {}
run {}
