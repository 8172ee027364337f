; Three guides take turns at one desk: names of many characters, each declared as a constant.
; status: sat
(set-logic QF_IDL)
(declare-const guide.1 Int)
(declare-const guide.2 Int)
(declare-const _the+third*guide?_ Int)
(assert (or (<= (- guide.1 guide.2) (- 60)) (<= (- guide.2 guide.1) (- 60))))
(assert (or (<= (- guide.1 _the+third*guide?_) (- 60)) (<= (- _the+third*guide?_ guide.1) (- 60))))
(assert (or (<= (- guide.2 _the+third*guide?_) (- 60)) (<= (- _the+third*guide?_ guide.2) (- 60))))
(assert (<= (- guide.1 _the+third*guide?_) 60))
(assert (<= (- _the+third*guide?_ guide.1) 60))
(check-sat)
