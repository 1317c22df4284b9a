open d/m
