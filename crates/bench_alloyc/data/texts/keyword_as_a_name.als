sig set {}
run {}
