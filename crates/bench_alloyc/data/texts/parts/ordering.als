module util/ordering[exactly elem]
private one sig Ord { First: set elem }
