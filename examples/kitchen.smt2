; A plan in minutes: tea needs water that boils, and both are ready within a quarter of an hour.
(declare-const start Int)
(declare-const |water boils| Int)
(declare-const |tea is ready| Int)
(assert (>= start 0))
(assert (>= (- |water boils| start) 4))        ; boiling takes at least four minutes
(assert (>= (- |tea is ready| |water boils|) 3))
(assert (<= (- |tea is ready| start) 15))
(check-sat)
(minimize (- |tea is ready| start))            ; how soon can it be ready?
(assert (<= (- |tea is ready| start) 6))       ; six minutes are too few
(check-sat)
(exit)
