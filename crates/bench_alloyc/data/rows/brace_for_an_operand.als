run { some }
