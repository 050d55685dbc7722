; Functions, definitions, variables and annotations.
(declare-fun f (Int (_ BitVec 8)) Int)
(declare-const v (_ BitVec 8))
(define-fun g ((y Int)) Int (+ (f y v) 1))
(define-fun two () Int (g 1))
(assert (let ((a 1) (b two)) (! (= (g a) b) :weight 2)))
(assert (let ((w (bvadd v #x01))) (= w #x03)))
(check-sat)
(get-model)
