module m[x]
