abstract sig Shape {}
abstract sig Round extends Shape {}
one sig Square extends Shape {}
one sig Circle, Oval extends Round {}
check { Round = Circle + Oval and Square not in Round and Shape = Round + Square } for 3
run { some Shape - Round } for 3
run { Circle = Oval } for 3
