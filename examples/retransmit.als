// A protocol over a wire that loses messages: the sender repeats a message until the receiver has it.
// Messages are numbered by the library's order.

open util/ordering[Message] as order

sig Message {}
one sig Sender { var sending: lone Message }
one sig Wire { var carries: lone Message }
var sig Received in Message {}

pred send { some Sender.sending   Wire.carries' = Sender.sending   sending' = sending   Received' = Received }
pred lose { some Wire.carries   no Wire.carries'   sending' = sending   Received' = Received }
pred receive {
  some Wire.carries
  Received' = Received + Wire.carries
  no Wire.carries'
  // an acknowledgement takes the sender to the next message, unless this one was acknowledged before
  Sender.sending' = (Wire.carries = Sender.sending => order/next[Sender.sending] else Sender.sending)
}
pred rest { sending' = sending   carries' = carries   Received' = Received }

fact behaviour {
  Sender.sending = order/first
  no carries and no Received
  always (send or lose or receive or rest)
}

// Command 0: all messages arrive.
// Answer: a trace, status 10. "alloyc least" says how many states are needed for 2 messages: 5.
arrive: run { eventually Message in Received } for exactly 2 Message, 6 steps

// Command 1: messages arrive in order, without gaps.
// Answer: "none states 7", status 20.
assert in_order { always all m: Received | order/prevs[m] in Received }
check in_order for exactly 3 Message, 7 steps

// Command 2: what was received was on the wire just before it came in.
// Answer: "none states 6", status 20. "before" and "since" look back in time.
assert honest { all m: Message | always (m in Received implies (m in Received since before m in Wire.carries)) }
check honest for exactly 2 Message, 6 steps

// Command 3: if the sender goes on sending, everything arrives.
// Answer: a trace, status 10: the wire may lose each message.
check { (always eventually send) implies eventually Message in Received } for exactly 2 Message, 6 steps
