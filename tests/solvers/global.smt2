(set-option :global-declarations true)(set-option :produce-models true) (set-logic QF_BV)(push 1)(declare-const p Bool)(pop 1)(assert p)(check-sat)(get-model)
