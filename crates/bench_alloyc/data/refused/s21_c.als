module s21_c
open s21_b
