module b[x]
