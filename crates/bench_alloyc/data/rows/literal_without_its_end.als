run { "a" = "a
