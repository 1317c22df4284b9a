open gone
run {} for 9
x: check { no none }
pred p {}
  run p
