(set-option :produce-models true) (set-logic QF_BV)(declare-const p Bool)(assert p)(check-sat)(get-value (p))(get-model)(exit)
