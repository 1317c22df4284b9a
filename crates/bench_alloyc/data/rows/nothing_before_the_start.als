run { before some univ }
