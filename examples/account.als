// Integers wrap: an account in a fixed number of bits, and a guard that is wrong.

one sig Account { var balance: one Int }

pred deposit[n: Int] { n > 0   Account.balance' = plus[Account.balance, n] }
pred guarded[n: Int] { n > 0   plus[Account.balance, n] > Account.balance   Account.balance' = plus[Account.balance, n] }
pred keep { balance' = balance }

// Command 0: after deposits the balance is 6.
// Answer: a trace, status 10.
run { Account.balance = 0   always (keep or some n: Int | deposit[n])   eventually Account.balance = 6 } for 3 steps

// Command 1: deposits never make the balance negative.
// Answer: a trace, status 10. At four bits 7 + 1 is -8.
check {
  (Account.balance = 0 and always (keep or some n: Int | deposit[n])) implies always Account.balance >= 0
} for 3 steps

// Command 2: with a guard on the sum.
// Answer: "none states 4", status 20.
check {
  (Account.balance = 0 and always (keep or some n: Int | guarded[n])) implies always Account.balance >= 0
} for 4 steps

// Command 3: at five bits, four deposits of at most 3 are safe without a guard.
// Answer: "none states 5", status 20. Five bits reach to 15, and four deposits make at most 12.
check {
  (Account.balance = 0 and always (keep or some n: Int | n =< 3 and deposit[n])
    and after after after after always keep) implies always Account.balance >= 0
} for 5 Int, 5 steps
