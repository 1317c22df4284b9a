sig A sig
