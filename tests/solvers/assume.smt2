(set-option :produce-models true) (set-logic QF_BV)(declare-const p Bool)(declare-const q Bool)(assert (or p q))(check-sat-assuming ((not p)))(get-model)(check-sat-assuming (p (not q)))(get-model)
