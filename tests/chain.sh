#!/bin/sh
# chain.sh N VALUE: prints a script with N functions, each calling the one before, and the assertion that the last gives this value for 0.
awk -v n="$1" -v value="$2" 'BEGIN {
    print "(define-fun f0 ((x Int)) Int (+ x 1))"
    for (i = 1; i < n; i++) printf "(define-fun f%d ((x Int)) Int (f%d x))\n", i, i - 1
    printf "(assert (= (f%d 0) %d))(check-sat)(get-model)\n", n - 1, value }'
