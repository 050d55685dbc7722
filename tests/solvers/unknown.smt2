(set-option :frobnicate true)(set-option :produce-models true) (set-logic QF_BV)(declare-const p Bool)(assert p)(check-sat)(get-model)
