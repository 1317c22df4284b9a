sig A {} /*
