(set-option :produce-models true) (set-logic QF_UFBV)(declare-fun f ((_ BitVec 4)) Bool)(declare-const x (_ BitVec 4))(assert (f x))(check-sat)(get-model)
