(set-option :produce-models true) (set-logic QF_BV)(declare-const x (_ BitVec 8))(define-fun k () (_ BitVec 8) #x07)(assert (bvult x k))(check-sat)(get-model)
