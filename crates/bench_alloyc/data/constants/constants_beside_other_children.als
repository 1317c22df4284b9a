abstract sig Node { above: lone Node }
one sig Top extends Node {}
sig Leaf extends Node {}
lone sig Spare extends Node {}
fact { no Top.above and all l: Node - Top | l.above = Top }
run { #Leaf = 3 } for 4
run { #Leaf = 4 } for 4
run { some Spare and #Leaf = 2 } for 4
check { above.Node + Top = Node and Top not in Leaf } for 4
