sig A {}
  ?
