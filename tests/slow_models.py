#!/usr/bin/env python3
"""Writes some hundred dialogues of at most 1 MB that are made to be slow to check, and runs the program on each.

usage: slow_models.py FOLDER [--most SECONDS] [--steps N]

Writes FOLDER/NAME.smt2 and FOLDER/NAME.txt for each of 38 kinds at four sizes, with print-success off, and prints
the ten that took the most processor time, in seconds, and the memory of each. A run that ends without a report fails,
and with --most one that takes more seconds. Needs what `rt ci` has
built, or another program: SMTCHECK names it."""
import os
import sys

import hostile
from measured import can_measure, run

MOST = 1_000_000
ASK = '(check-sat)(get-model)'


def fill(room, piece, start=0):
    """As many pieces as there is room for."""
    parts, used, i = [], 0, start
    while True:
        text = piece(i)
        used += len(text)
        if used > room:
            return ''.join(parts), i
        parts.append(text)
        i += 1


def functions_of_the_script(room):
    text, n = fill(room, lambda i: f'(define-fun f{i} ((x Int)) Int '
                   + (f'(f{i-1} (f{i-1} x)))' if i else '(+ x x))'))
    return text + f'(assert (= (f{n-1} 0) 0))' + ASK, 'sat ()'


def functions_of_the_model(room):
    text, n = fill(room, lambda i: f'(define-fun f{i} ((x Int)) Int '
                   + (f'(f{i-1} (f{i-1} x)))' if i else '(+ x x))'))
    return '(declare-const c Int)(assert (= c 0))' + ASK, f'sat ({text}(define-fun c () Int (f{n-1} 0)))'


def constants_of_the_script(room):
    text, n = fill(room, lambda i: f'(define-fun c{i} () Int ' + (f'(+ c{i-1} c{i-1}))' if i else '0)'))
    return text + f'(assert (= c{n-1} 0))' + ASK, 'sat ()'


def constants_of_the_model(room):
    text, n = fill(room, lambda i: f'(define-fun c{i} () Int ' + (f'(+ c{i-1} c{i-1}))' if i else '0)'))
    return '(declare-const d Int)(assert (= d 0))' + ASK, f'sat ({text}(define-fun d () Int c{n-1}))'


def wide_let(room):
    text, n = fill(room * 2 // 3, lambda i: f'(v{i} {i})')
    uses, _ = fill(room // 3, lambda i: f' v{i}')
    return f'(assert (let ({text}) (distinct{uses})))' + ASK, 'sat ()'


def deep_lets(room):
    one = '(assert (let ((y 0)) ' + '(let ((y (+ y y))) ' * 900 \
        + '(= y 0)' + ')' * 902
    text, _ = fill(room, lambda i: one)
    return text + ASK, 'sat ()'


def distinct_integers(room):
    text, _ = fill(room, lambda i: f' {i}')
    return f'(assert (distinct{text}))' + ASK, 'sat ()'


def distinct_vectors(room):
    text, _ = fill(room, lambda i: f' #x{i:08x}')
    return f'(assert (distinct{text}))' + ASK, 'sat ()'


def labels_on_a_term(room):
    text, _ = fill(room // 2, lambda i: f' :named a{i}')
    uses, _ = fill(room // 2, lambda i: ' a0')
    return f'(assert (! (and true true){text}))(assert (and{uses}))' + ASK, 'sat ()'


def labels_over_labels(room):
    text, _ = fill(room, lambda i: f'(assert (! (and true {f"a{i-1} a{i-1}" if i else "true"}) :named a{i}))')
    return text + ASK, 'sat ()'


def labels_in_lets(room):
    lets = '(let ((x true)) ' * 400
    text, _ = fill(room - 8000, lambda i: f' :named a{i}')
    return f'(assert {lets}(! (let ((w true)) (and w true)){text}){")" * 401}' + ASK, 'sat ()'


def calls_of_a_wide_body(room):
    text, _ = fill(room // 2, lambda i: ' true')
    calls, _ = fill(room // 2, lambda i: ' (f 0)')
    return f'(define-fun f ((x Int)) Bool (and{text}))(assert (and{calls}))' + ASK, 'sat ()'


def many_parameters(room):
    text, n = fill(room // 3, lambda i: f'(p{i} Bool)')
    uses, _ = fill(room // 3, lambda i: f' p{n-1}')
    args, _ = fill(room, lambda i: ' true' if i < n else ' ' * (room + 1))
    return f'(define-fun f ({text}) Bool (and{uses}))(assert (f{args}))' + ASK, 'sat ()'


def parameters_and_lets(room):
    text, n = fill(room // 3, lambda i: f'(p{i} Bool)')
    lets = '(let ((y true)) ' * 900
    return f'(define-fun f ({text}) Bool {lets}(and y p{n-1}){")" * 901}(assert true)' + ASK, 'sat ()'


def models_over_an_unused_body(room):
    text, _ = fill(room // 2, lambda i: ' x')
    gets, n = fill(room // 3, lambda i: '(get-model)')
    return f'(define-fun f ((x Bool)) Bool (and{text}))(assert true)(check-sat){gets}', 'sat' + '()' * n


def models_over_assertions(room):
    text, _ = fill(room // 2, lambda i: '(assert true)')
    gets, n = fill(room // 3, lambda i: '(get-model)')
    return f'{text}(check-sat){gets}', 'sat' + '()' * n


def models_of_a_thousand_steps(room):
    gets, n = fill(room // 2, lambda i: '(get-model)')
    return f'(assert (and{" true" * 990}))(check-sat){gets}', 'sat' + '()' * n


def checks_over_an_unused_body(room):
    text, _ = fill(room // 2, lambda i: ' x')
    gets, n = fill(room // 3, lambda i: ASK)
    return f'(define-fun f ((x Bool)) Bool (and{text}))(assert true){gets}', 'sat()' * n


def models_with_many_names(room):
    text, n = fill(room // 3, lambda i: f'(declare-const x{i} Bool)')
    items, _ = fill(room, lambda i: f'(define-fun x{i} () Bool true)' if i < n else ' ' * (room + 1))
    return f'{text}(assert (and x0 x{n-1})){ASK}', f'sat ({items})'


def nested_choices(room):
    one = '(assert ' + '(ite true ' * 900 + 'true' + ' false)' * 900 + ')'
    text, _ = fill(room, lambda i: one)
    return text + ASK, 'sat ()'


def nested_functions(room):
    text, n = fill(room, lambda i: f'(define-fun f{i} ((x Int)) Int ' + '(- ' * 884
                   + (f'(f{i-1} x)' if i else 'x') + ')' * 885)
    return text + f'(assert (= 0 (f{n-1} 0)))' + ASK, 'sat ()'


def chains_of_functions(room):
    text, n = fill(room, lambda i: f'(define-fun f{i} ((x Int)) Int ' + (f'(f{i-1} x))' if i else 'x)'))
    return text + f'(assert (= 0 (f{n-1} 0)))' + ASK, 'sat ()'


def annotations(room):
    one = '(assert ' + '(! ' * 900 + 'true' + ' :a)' * 900 + ')'
    text, _ = fill(room, lambda i: one)
    return text + ASK, 'sat ()'


def long_names(room):
    name = 'n' * (room // 20)
    text, _ = fill(room * 17 // 20, lambda i: f' {name}')
    return f'(declare-const {name} Bool)(assert (and{text}))' + ASK, f'sat ((define-fun {name} () Bool true))'


def rounds(room):
    text, n = fill(room * 4 // 5, lambda i: f'(push 1)(assert (and true true)){ASK}(pop 1)')
    return text, 'sat()' * n


def deep_behind_large(room):
    """The deepest term once the heap is large."""
    deep = '(assert ' + '(let ((x true)) ' * 990 + 'x' + ')' * 991
    text, _ = fill(room - len(deep), lambda i: '(assert (and' + ' p' * 100 + '))')
    return f'(declare-const p Bool){text}{deep}{ASK}', 'sat ((define-fun p () Bool true))'


def deep_around_wide(room):
    """A wide term within the deepest one."""
    uses, _ = fill(room - 18_000, lambda i: ' x')
    return '(assert ' + '(let ((x true)) ' * 990 + f'(and{uses}{")" * 992}{ASK}', 'sat ()'


def hostile_shape(make):
    """A shape of hostile.py, as large as there is room for."""
    def kind(room):
        size = 1
        while sum(map(len, make(2 * size))) <= room:
            size *= 2
        step = size
        while step > 1:
            step //= 2
            if sum(map(len, make(size + step))) <= room:
                size += step
        return make(size)
    kind.__name__ = make.__name__
    return kind


KINDS = [functions_of_the_script, functions_of_the_model, constants_of_the_script, constants_of_the_model, wide_let,
         deep_lets, distinct_integers, distinct_vectors, labels_on_a_term, labels_over_labels, labels_in_lets,
         calls_of_a_wide_body, many_parameters, parameters_and_lets, models_over_an_unused_body,
         models_over_assertions, models_of_a_thousand_steps, checks_over_an_unused_body, models_with_many_names,
         nested_choices, nested_functions, chains_of_functions, annotations, long_names, rounds, deep_behind_large, deep_around_wide]
KINDS += [hostile_shape(shape.make) for shape in hostile.SHAPES.values() if shape.size > 250]


def checked(words, patience):
    """What the program takes, which has to end with a report."""
    took = run(words, (), patience)
    if took.status not in (0, 1, 2):
        sys.exit(f'{words}: status {took.status} after {took.seconds:.1f} s: {took.last}{took.complaint}')
    return took


def main():
    folder, options = sys.argv[1], sys.argv[2:]
    most = None
    if options[:1] == ['--most']:
        most, options = float(options[1]), options[2:]
    if not can_measure():
        sys.exit('slow models: memory can\'t be measured here')
    top = os.path.dirname(os.path.dirname(os.path.abspath(__file__)))
    program = [os.environ.get('SMTCHECK', f'{top}/crates/smtcheck/out/smtcheck'), '--print-success', 'off', *options]
    took = []
    for kind in KINDS:
        for part in (8, 4, 2, 1):
            script, answers = kind(MOST // part - 3000)
            name = f'{folder}/{kind.__name__}_{part}'
            for text, end in ((script, 'smt2'), (answers, 'txt')):
                with open(f'{name}.{end}', 'w', encoding='ascii') as out:
                    out.write(text)
            took.append((checked([*program, f'{name}.smt2', f'{name}.txt'], 600), kind.__name__, len(script) + len(answers)))
    took.sort(key=lambda found: -found[0].seconds)
    for found, kind, size in took[:10]:
        print(f'{found.seconds:7.2f} {found.memory / 1e6:6.1f} MB {kind}, {size} bytes: {found.last}')
    if most is not None and took[0][0].seconds > most:
        sys.exit(f'slow models: {took[0][1]} takes more than {most} seconds')


if __name__ == '__main__':
    main()
