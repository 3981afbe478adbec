; Two events, each before the other: there is no such schedule.
(declare-const x Int)
(declare-const y Int)
(assert (< x y))
(assert (< y x))
(check-sat)
