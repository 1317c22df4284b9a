enum Floor { Low, Mid, High }
one sig Lift { var at: Floor }
fact { Lift.at = Low and always (Lift.at' in Lift.at + Lift.at.next + Lift.at.prev) }
run { eventually Lift.at = Mid } for 3 but 4 steps
check { Lift.at in Low + Mid + High } for 3 but 2 steps
check { always one Lift.at } for 3 but 3 steps
