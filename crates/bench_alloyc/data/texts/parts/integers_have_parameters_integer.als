module util/integer[x]
