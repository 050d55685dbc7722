(set-option :produce-models true) (set-logic QF_BV)(declare-const x (_ BitVec 8))(assert (bvult x #x07))(check-sat)(get-model)(get-model)(push 1)(assert (= x #x03))(check-sat)(get-model)(pop 1)
