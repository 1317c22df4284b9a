abstract sig Place {}
one sig Home extends Place {}
sig Room extends Home {}
one sig Work extends Place {}
run { some Room } for 3
check { Room in Home and lone Room } for 3
run { Work in Home } for 3
