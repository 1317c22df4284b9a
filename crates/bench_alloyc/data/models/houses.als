// Five houses in a row; each has a colour, and the one who lives there a nation, a drink, a pet and a trade of his own.
open util/ordering[House]

sig House { colour: Colour, nation: Nation, drink: Drink, pet: Pet, trade: Trade }

abstract sig Colour {}
one sig Red, Green, Ivory, Yellow, Blue extends Colour {}
abstract sig Nation {}
one sig English, Spanish, Ukrainian, Norwegian, Japanese extends Nation {}
abstract sig Drink {}
one sig Coffee, Tea, Milk, Juice, Water extends Drink {}
abstract sig Pet {}
one sig Dog, Snails, Fox, Horse, Zebra extends Pet {}
abstract sig Trade {}
one sig Painter, Sculptor, Diplomat, Violinist, Doctor extends Trade {}

// no two houses share a value
fact { all disj a, b: House {
  a.colour != b.colour
  a.nation != b.nation
  a.drink != b.drink
  a.pet != b.pet
  a.trade != b.trade
} }

fun beside [h: House]: set House { h.next + h.prev }

fact clues {
  nation.English.colour = Red
  nation.Spanish.pet = Dog
  colour.Green.drink = Coffee
  nation.Ukrainian.drink = Tea
  colour.Green = colour.Ivory.next
  trade.Sculptor.pet = Snails
  trade.Diplomat.colour = Yellow
  first.next.next.drink = Milk
  first.nation = Norwegian
  pet.Fox in beside[trade.Doctor]
  pet.Horse in beside[trade.Diplomat]
  trade.Violinist.drink = Juice
  nation.Japanese.trade = Painter
  colour.Blue in beside[nation.Norwegian]
}

run solution {} for 5 but exactly 5 House
check { pet.Zebra.nation = Japanese and drink.Water.nation = Norwegian } for 5 but exactly 5 House
check { last.colour = Green and nation.Spanish.drink = Juice } for 5 but exactly 5 House
