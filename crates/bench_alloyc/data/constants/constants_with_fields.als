sig Person {}
abstract sig City { twin: lone City }
one sig Oslo extends City { mayor: Person }
one sig Rome extends City { mayor, guard: Person }
run { Oslo.mayor != Rome.guard and twin = Oslo -> Rome } for 3
check { City <: twin in (Oslo + Rome) -> (Oslo + Rome) and one Oslo.mayor } for 3
run { Rome.guard not in Person } for 3
