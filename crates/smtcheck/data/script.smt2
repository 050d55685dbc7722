(declare-const p Bool)
(assert p)
(check-sat)
(get-model)
