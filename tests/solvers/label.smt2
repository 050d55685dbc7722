(set-option :produce-models true) (set-logic QF_BV)(declare-const x (_ BitVec 8))(assert (! (bvult x #x07) :named small))(check-sat)(get-model)
