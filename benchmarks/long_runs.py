"""Scripts and answer lines of long runs: a service of three cycles; two loops in one another, of 249,750 cycles; each transfer in a service of its
own, a scan of 16 addresses, a Q-stop and a Q-repeat of 4,000 cycles; and a service of a thousand calls, each three deep."""
SCRIPT = """cdlam adc 1 1 5 12
var v
service adc within 9 cycles event 1 words {
  cdreg r 1 1 5 0
  cfsa 0 r -> v
  put v
  cclc adc
  ctlm adc
}
"""
LOOPS = """cdlam adc 1 1 5 12
var i k
service adc within 749250 cycles event 0 words {
  for i = 1 to 999 {
    for k = 1 to 250 { cclc adc }
  }
}
"""
OPENING = "cdlam adc 1 1 5 12\nvar i t\n"
SCAN = OPENING + """service adc within 48 cycles event 16 words {
  cdreg first 1 1 5 0
  cdreg last 1 1 5 15
  cfmad 0 first last max 16 tally t
}
"""
STOP = OPENING + """service adc within 12000 cycles event 4000 words {
  cdreg r 1 1 5 0
  cfubc 0 r max 4000 tally t
}
"""
REPEAT = OPENING + """service adc within 12000 cycles event 2000 words {
  cdreg r 1 1 5 0
  cfubr 0 r max 2000 limit 4000 tally t
}
"""
CALLS = OPENING + """proc channel(a in 0..11) within 3 cycles event 1 words steps 3 {
  cdreg r 1 1 5 a
  cfsa 0 r -> a
  put a
}
proc module(a in 0..11) within 3 cycles event 1 words steps 4 { call channel(a) }
proc bin(a in 0..11) within 3 cycles event 1 words steps 5 { call module(a) }
service adc within 3000 cycles event 1000 words {
  for i = 0 to 999 { call bin(i % 12) }
}
"""
QUIET = "0 0 000000 0 000000\n"
DEMAND = "0 0 000000 0 000004\n"
CYCLE = "1 1 123fff 0 000000\n"
AGAIN = "1 0 000000 0 000000\n"
