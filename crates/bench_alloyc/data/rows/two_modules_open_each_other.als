open b
run {}
