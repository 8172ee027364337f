; One of four visitors is to come an hour before the lecture, but three of them cannot.
; status: sat
(set-logic QF_IDL)
(declare-fun lecture () Int)
(declare-fun a () Int)
(declare-fun b () Int)
(declare-fun c () Int)
(declare-fun d () Int)
(assert (or
  (<= (- a lecture) (- 60))
  (<= (- b lecture) (- 60))
  (<= (- c lecture) (- 60))
  (<= (- d lecture) (- 60))))
(assert (<= (- lecture a) 59))
(assert (<= (- lecture b) 0))
(assert (<= (- lecture c) (- 100000)))
(assert (<= (- lecture d) 60))
(check-sat)
