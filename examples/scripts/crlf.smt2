; A script whose lines end with a carriage return and a line feed.
; status: unsat
(set-logic QF_IDL)
(declare-fun warm () Int) ; the tube is warm
(declare-const scan Int)
(assert
    (<= (- warm scan) (- 15)))
(assert (or (<= (- scan warm) 14) ; too soon
            (<= (- scan
                   warm) 0)))
(check-sat)
