pred p { q }
pred q { p }
run {}
