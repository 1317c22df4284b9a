sig Colour {}
one sig Red, Green, Blue extends Colour {}
run {} for exactly 2 Colour
check { Red = Green } for exactly 2 Colour
run {} for exactly 3 Colour
check { Red != Green } for exactly 3 Colour
