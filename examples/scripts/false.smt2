; A rule that nothing keeps.
; status: unsat
(set-logic QF_IDL)
(declare-fun warm () Int)
(declare-fun scan () Int)
(assert (<= (- warm scan) 0))
(assert false)
(check-sat)
