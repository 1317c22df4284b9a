-- Temporal operators of two operands, one in the other on either side, over two states and three.
var sig A, B {}
run { some A until some B } for 1 but 1 steps
run { some A releases some B } for 1 but 1 steps
run { some A since some B } for 1 but 1 steps
run { some A triggered some B } for 1 but 1 steps
run { some A ; some B } for 1 but 1 steps
run { some A until some B } for 1 but 2 steps
run { some A releases some B } for 1 but 2 steps
run { some A since some B } for 1 but 2 steps
run { some A triggered some B } for 1 but 2 steps
run { some A ; some B } for 1 but 2 steps
run { some A until some B } for 1 but 3 steps
run { some A releases some B } for 1 but 3 steps
run { some A since some B } for 1 but 3 steps
run { some A triggered some B } for 1 but 3 steps
run { some A ; some B } for 1 but 3 steps
run { (some A until some B) until no A } for 1 but 2 steps
run { some A until (no B until some A) } for 1 but 2 steps
run { (some A until some B) releases no A } for 1 but 2 steps
run { some A until (no B releases some A) } for 1 but 2 steps
run { (some A until some B) since no A } for 1 but 2 steps
run { some A until (no B since some A) } for 1 but 2 steps
run { (some A until some B) triggered no A } for 1 but 2 steps
run { some A until (no B triggered some A) } for 1 but 2 steps
run { (some A until some B) ; no A } for 1 but 2 steps
run { some A until (no B ; some A) } for 1 but 2 steps
run { (some A releases some B) until no A } for 1 but 2 steps
run { some A releases (no B until some A) } for 1 but 2 steps
run { (some A releases some B) releases no A } for 1 but 2 steps
run { some A releases (no B releases some A) } for 1 but 2 steps
run { (some A releases some B) since no A } for 1 but 2 steps
run { some A releases (no B since some A) } for 1 but 2 steps
run { (some A releases some B) triggered no A } for 1 but 2 steps
run { some A releases (no B triggered some A) } for 1 but 2 steps
run { (some A releases some B) ; no A } for 1 but 2 steps
run { some A releases (no B ; some A) } for 1 but 2 steps
run { (some A since some B) until no A } for 1 but 2 steps
run { some A since (no B until some A) } for 1 but 2 steps
run { (some A since some B) releases no A } for 1 but 2 steps
run { some A since (no B releases some A) } for 1 but 2 steps
run { (some A since some B) since no A } for 1 but 2 steps
run { some A since (no B since some A) } for 1 but 2 steps
run { (some A since some B) triggered no A } for 1 but 2 steps
run { some A since (no B triggered some A) } for 1 but 2 steps
run { (some A since some B) ; no A } for 1 but 2 steps
run { some A since (no B ; some A) } for 1 but 2 steps
run { (some A triggered some B) until no A } for 1 but 2 steps
run { some A triggered (no B until some A) } for 1 but 2 steps
run { (some A triggered some B) releases no A } for 1 but 2 steps
run { some A triggered (no B releases some A) } for 1 but 2 steps
run { (some A triggered some B) since no A } for 1 but 2 steps
run { some A triggered (no B since some A) } for 1 but 2 steps
run { (some A triggered some B) triggered no A } for 1 but 2 steps
run { some A triggered (no B triggered some A) } for 1 but 2 steps
run { (some A triggered some B) ; no A } for 1 but 2 steps
run { some A triggered (no B ; some A) } for 1 but 2 steps
run { (some A ; some B) until no A } for 1 but 2 steps
run { some A ; (no B until some A) } for 1 but 2 steps
run { (some A ; some B) releases no A } for 1 but 2 steps
run { some A ; (no B releases some A) } for 1 but 2 steps
run { (some A ; some B) since no A } for 1 but 2 steps
run { some A ; (no B since some A) } for 1 but 2 steps
run { (some A ; some B) triggered no A } for 1 but 2 steps
run { some A ; (no B triggered some A) } for 1 but 2 steps
run { (some A ; some B) ; no A } for 1 but 2 steps
run { some A ; (no B ; some A) } for 1 but 2 steps
run { (after some A until some B) until before no A } for 1 but 3 steps
run { (after some A until some B) releases before no A } for 1 but 3 steps
run { (after some A until some B) since before no A } for 1 but 3 steps
run { (after some A until some B) triggered before no A } for 1 but 3 steps
run { (after some A releases some B) until before no A } for 1 but 3 steps
run { (after some A releases some B) releases before no A } for 1 but 3 steps
run { (after some A releases some B) since before no A } for 1 but 3 steps
run { (after some A releases some B) triggered before no A } for 1 but 3 steps
run { (after some A since some B) until before no A } for 1 but 3 steps
run { (after some A since some B) releases before no A } for 1 but 3 steps
run { (after some A since some B) since before no A } for 1 but 3 steps
run { (after some A since some B) triggered before no A } for 1 but 3 steps
run { (after some A triggered some B) until before no A } for 1 but 3 steps
run { (after some A triggered some B) releases before no A } for 1 but 3 steps
run { (after some A triggered some B) since before no A } for 1 but 3 steps
run { (after some A triggered some B) triggered before no A } for 1 but 3 steps
run { A' = B } for 1 but 3 steps
run { always A' = B } for 1 but 3 steps
run { some A'' } for 1 but 3 steps
run { eventually A' != A } for 1 but 3 steps
run { once (A' in B and some B') } for 1 but 3 steps
run { always (some A implies (after some B) else no B) } for 1 but 2 steps
run { before before before some A } for 1 but 2 steps
run { eventually before before once some A } for 1 but 3 steps
check { always some A implies some A } for 1 but 3 steps
