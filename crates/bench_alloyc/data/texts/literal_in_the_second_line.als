a
 "b