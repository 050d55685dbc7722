(set-option :produce-models true) (declare-const x (_ BitVec 8))(assert (bvult x #x07))(check-sat)(get-model)
