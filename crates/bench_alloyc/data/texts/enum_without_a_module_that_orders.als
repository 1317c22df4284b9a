sig A {}
enum E { F }
