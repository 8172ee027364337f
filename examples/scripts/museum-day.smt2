; The museum's day: the tube is fired twice and a disc is read in between, all within opening hours.
; status: sat
(set-logic QF_IDL)

(declare-fun opening () Int)
(declare-fun first-firing () Int)
(declare-fun reading () Int)
(declare-fun second-firing () Int)
(declare-fun closing () Int)

; Eight hours, and half an hour at either end without a firing.
(assert (<= (- closing opening) 480))
(assert (<= (- opening first-firing) (- 30)))
(assert (<= (- second-firing closing) (- 30)))

(assert
  (or
    (<= (- first-firing second-firing)   ; the tube cools 45 minutes,
        (- 45))
    (<= (- second-firing first-firing)   ; whichever firing comes first
        (- 45))))

(assert (or (<= (- reading first-firing) (- 20))      ; the disc is read before the tube is hot,
            (<= (- first-firing reading) (- 90))))    ; or long after

(assert (<= (- reading
               second-firing)
            0))

(check-sat)
