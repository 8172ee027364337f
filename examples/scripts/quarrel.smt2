; Three groups want the scanner for half an hour each, one after the other, and none may start more than
; 59 minutes after another: the third is a minute late.
; status: unsat
(set-logic QF_IDL)
(declare-fun red () Int)
(declare-fun green () Int)
(declare-fun blue () Int)
(assert (or (<= (- red green) (- 30)) (<= (- green red) (- 30))))
(assert (or (<= (- green blue) (- 30)) (<= (- blue green) (- 30))))
(assert (or (<= (- blue red) (- 30)) (<= (- red blue) (- 30))))
(assert (<= (- red green) 59))
(assert (<= (- green red) 59))
(assert (<= (- green blue) 59))
(assert (<= (- blue green) 59))
(assert (<= (- blue red) 59))
(assert (<= (- red blue) 59))
(check-sat)
