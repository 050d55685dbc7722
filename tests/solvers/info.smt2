(set-option :produce-models true) (set-info :status sat)(set-logic QF_BV)(declare-const p Bool)(assert p)(check-sat)(get-model)(get-info :name)(check-sat)(get-model)
