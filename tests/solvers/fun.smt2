(set-option :produce-models true) (set-logic QF_UFBV)(declare-fun f ((_ BitVec 4)) (_ BitVec 4))(declare-const x (_ BitVec 4))(assert (= (f x) #x3))(check-sat)(get-model)
