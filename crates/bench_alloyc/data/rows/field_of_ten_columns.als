one sig A { f: A->A->A->A->A->A->A->A->A }
run { no f }
