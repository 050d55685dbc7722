(set-option :produce-models true) (set-logic QF_UFBV)(define-sort W () (_ BitVec 8))(declare-const x W)(define-fun f ((y W)) W (bvadd y y))(assert (let ((z (f x))) (= z #x04)))(check-sat)(get-model)
