open gone
run {}
