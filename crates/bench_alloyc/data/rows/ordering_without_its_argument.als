open util/ordering
run {}
