"""Scripts whose answers are those of a solver: five kinds of problems that people give to solvers, each of three sizes.

Each function of KINDS gives the script of a problem of a size, 0, 1 or 2. Each check has to be answered by `sat`, and
most problems are made round a solution.
"""


def jobs(size, random):
    """a plan for jobs that go over machines in orders of their own, each machine doing one at a time (QF_LIA)"""
    count, machines = ((6, 5), (15, 8), (30, 10))[size]
    lines = ["(set-logic QF_LIA)"]
    tasks = [[] for _ in range(machines)]
    total = [0] * machines
    for job in range(count):
        before = None
        for machine in random.sample(range(machines), machines):
            name, hours = "job%d_at%d" % (job, machine), random.randint(1, 20)
            lines.append("(declare-const %s Int)" % name)
            lines.append("(assert (>= %s %s))" % (name, "(+ %s %d)" % before if before else "0"))
            before = name, hours
            tasks[machine].append(before)
            total[machine] += hours
        lines.append("(assert (<= (+ %s %d) end))" % before)
    for names in tasks:
        for place, (a, hours) in enumerate(names):
            for b, others in names[:place]:
                lines.append("(assert (or (<= (+ %s %d) %s) (<= (+ %s %d) %s)))" % (a, hours, b, b, others, a))
    lines.insert(1, "(declare-const end Int)\n(assert (<= end %d))" % (max(total) * 3 // 2))
    return lines + ["(check-sat)", "(get-model)"]


def steps(size, random):
    """bounded model checking of a machine of two registers: can it come to this state in so many steps? one check for each number of
    steps, between push and pop (QF_BV)"""
    count = (10, 25, 50)[size]
    word = "(_ BitVec 16)"
    lines = [
        "(set-logic QF_BV)",
        "(define-fun next_a ((a {0}) (b {0}) (key (_ BitVec 2))) {0} (ite (= key #b00) (bvadd a b)"
        " (ite (= key #b01) (bvxor a (bvshl b #x0001)) (ite (= key #b10) (bvsub a #x0011) b))))".format(word),
        "(define-fun next_b ((a {0}) (b {0}) (key (_ BitVec 2))) {0}"
        " (ite (bvult a b) (bvadd b ((_ zero_extend 14) key)) (bvor (bvlshr b #x0001) (concat key #b00000000000000))))".format(word),
        "(declare-const a0 %s)" % word,
        "(declare-const b0 %s)" % word,
        "(assert (and (= a0 #x0001) (= b0 #x0003)))",
    ]
    a, b = 1, 3
    for step in range(count):
        key = random.randrange(4)
        a, b = (
            ((a + b) % 2**16, a ^ b * 2 % 2**16, (a - 17) % 2**16, b)[key],
            (b + key) % 2**16 if a < b else b >> 1 | key << 14,
        )
        here, there = step, step + 1
        lines += [
            "(declare-const key%d (_ BitVec 2))" % here,
            "(declare-const a%d %s)" % (there, word),
            "(declare-const b%d %s)" % (there, word),
            "(assert (= a%d (next_a a%d b%d key%d)))" % (there, here, here, here),
            "(assert (= b%d (next_b a%d b%d key%d)))" % (there, here, here, here),
            "(push 1)",
            "(assert (= ((_ extract 7 0) a%d) #x%02x))" % (there, a % 256),
            "(check-sat)", "(get-model)",
            "(pop 1)",
        ]
    return lines


def square(size, random):
    """a Latin square of which four cells of ten are given, over vectors (QF_BV)"""
    count = (9, 16, 25)[size]
    width = 5
    rows, columns, symbols = (random.sample(range(count), count) for _ in range(3))
    lines = ["(set-logic QF_BV)"]
    for row in range(count):
        for column in range(count):
            cell = "cell_%d_%d" % (row, column)
            lines.append("(declare-const %s (_ BitVec %d))" % (cell, width))
            lines.append("(assert (bvult %s (_ bv%d %d)))" % (cell, count, width))
            if random.random() < 0.4:
                value = symbols[(rows[row] + columns[column]) % count]
                lines.append("(assert (= %s (_ bv%d %d)))" % (cell, value, width))
    for line in range(count):
        lines.append("(assert (distinct %s))" % " ".join("cell_%d_%d" % (line, other) for other in range(count)))
        lines.append("(assert (distinct %s))" % " ".join("cell_%d_%d" % (other, line) for other in range(count)))
    return lines + ["(check-sat)", "(get-model)"]


def colours(size, random):
    """a graph whose nodes get one of four colours, over truth values (QF_UF)"""
    count = (200, 2000, 20000)[size]
    lines = ["(set-logic QF_UF)"]
    colour = [random.randrange(4) for _ in range(count)]
    for node in range(count):
        names = ["n%d_%d" % (node, which) for which in range(4)]
        lines += ["(declare-const %s Bool)" % name for name in names]
        lines.append("(assert (or %s))" % " ".join(names))
    for _ in range(count * 3):
        a, b = random.sample(range(count), 2)
        if colour[a] != colour[b]:
            lines += ["(assert (not (and n%d_%d n%d_%d)))" % (a, which, b, which) for which in range(4)]
    return lines + ["(check-sat)", "(get-model)"]


def queens(size, random):
    """queens on a board, the column of each row being the value of a function (QF_UFLIA)"""
    count = (8, 16, 24)[size]
    lines = ["(set-logic QF_UFLIA)", "(declare-fun column (Int) Int)"]
    for row in range(count):
        lines.append("(assert (and (<= 0 (column %d)) (< (column %d) %d)))" % (row, row, count))
        for other in range(row):
            for distance in (0, row - other, other - row):
                lines.append("(assert (distinct (column %d) (+ (column %d) %s)))"
                             % (row, other, distance if distance >= 0 else "(- %d)" % -distance))
    return lines + ["(check-sat)", "(get-model)"]


KINDS = {function.__name__: function for function in (jobs, steps, square, colours, queens)}
