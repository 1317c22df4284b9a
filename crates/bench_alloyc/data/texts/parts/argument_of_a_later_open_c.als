sig C {}
