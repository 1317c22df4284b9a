var sig Busy {}
one sig Ann, Bob extends Busy {}
run { always Busy = Ann + Bob } for 3 but 2 steps
check { Ann != Bob } for 3 but 2 steps
