#!/bin/sh
# Runs the scripts of collections/ on the ten dialogues in tests/collection, as an organiser who makes mistakes would, and each command of
# docs/COLLECTIONS.md word for word. SMTCHECK names the program; without it, that which `rt ci` has built. Skips what needs a tool that is
# not installed, and says which. Says nothing else where all is well.
set -e
cd "$(dirname "$0")/.."
top=$PWD
for tool in python3 timeout; do
    command -v "$tool" >/dev/null || { echo "collections: skipped, since there is no $tool"; exit 0; }
done
# (a python3 that chooses one of several interpreters takes its time, at each start)
PATH=$(python3 -c 'import os, sys; print(os.path.dirname(sys.executable))'):$PATH
work=$(mktemp -d)
trap 'rm -rf "$work"' EXIT
export SMTCHECK="${SMTCHECK:-$top/crates/smtcheck/out/smtcheck}" PYTHONDONTWRITEBYTECODE=1
unset SOLVER SOLVER_SECONDS CHECK_SECONDS MEMORY_KB PRINT_SUCCESS SMTCHECK_OPTIONS
all=$top/collections/check_all.sh
one=$top/collections/check_one.sh
cd tests/collection

fail() {
    echo "collections: $1"
    exit 1
}

# ends STATUS COMMAND..: the command ends with this status. What it prints is in $work/table, and standard error in $work/errors.
ends() {
    wanted=$1
    shift
    status=0
    "$@" >"$work/table" 2>"$work/errors" </dev/null || status=$?
    [ "$status" = "$wanted" ] || fail "$* ends with $status, and not with $wanted: $(cat "$work/errors")"
}

# says WORDS: standard error has them.
says() {
    grep -qF -- "$1" "$work/errors" || fail "it does not say '$1': $(cat "$work/errors")"
}

# same WHAT FILE: the first nine columns of the table are the expected ones.
same() {
    cut -f 1-9 "$work/table" | cmp -s - "$2" || fail "$1: $(cut -f 1-9 "$work/table" | diff "$2" -)"
}

# fields FILE COLUMNS: these columns of a row.
fields() {
    cut -f "$2" "$1"
}

ends 1 "$all" "$work/kept" . 4
same 'a folder' table
[ "$(tr -s ' ' <"$work/errors")" = ' 1 invalid
 1 not decided
 1 script not taken
 7 valid' ] || fail "counts: $(cat "$work/errors")"
# Seconds and memory: of the check numbers, of no solver none.
awk -F '\t' 'NR > 1 && !($10 == "-" && $11 == "-" && $12 ~ /^[0-9.]+$/ && $13 ~ /^[1-9][0-9]*$/) { exit 1 }' "$work/table" || fail "measured: $(cat "$work/table")"
python3 - "$work/kept/plain/reals.smt2.json" <<'END_OF_PYTHON' || fail 'the object of a script'
import json, sys
told = json.load(open(sys.argv[1]))
assert told["script"] == "plain/reals.smt2" and told["verdict"] == "script not taken" and told["kept"] is True
assert told["solver"] is None and told["report"][0] == "fault C5 at command 1" and told["check_seconds"] > 0
END_OF_PYTHON

# What counts for the status.
ends 1 "$top/collections/table.sh" "$work/kept"
ends 2 "$top/collections/table.sh" --fails-on 'not decided,refused' "$work/kept"
ends 0 "$top/collections/table.sh" --fails-on 'solver stopped,answers not taken' "$work/kept"
ends 5 "$top/collections/table.sh" --fails-on wrong "$work/kept"
for command in check_all check_one table taken compare; do
    ends 0 "$top/collections/$command.sh" --help
    grep -q "^usage: $command.sh" "$work/table" || fail "$command.sh --help"
    ends 5 "$top/collections/$command.sh"
done

# What has a row is left alone, and what has none is checked.
echo kept >"$work/kept/plain/sudoku.smt2.row"
sed -i 's/$/				-/' "$work/kept/plain/sudoku.smt2.row"
rm "$work/kept/levels/bmc.smt2.row"
ends 1 "$all" "$work/kept" . 2
grep -q '^kept' "$work/table" || fail 'a row was made again'
grep -q '^levels/bmc.smt2' "$work/table" || fail 'a row that was missing was not made'

# A solver is run where one is named: here one that prints the answers beside the script.
cat >"$work/solver" <<'END'
#!/bin/sh
exec cat "${2%.smt2}.txt"
END
printf '#!/bin/sh\necho sat\nexec sleep 60\n' >"$work/slow"
printf '#!/bin/sh\ntrap "" TERM\necho sat\nwhile :; do sleep 1; done\n' >"$work/deaf"
printf '#!/bin/sh\ncase $1 in *sudoku*) echo rubbish "(";; *) exec cat "${1%%.smt2}.txt";; esac\n' >"$work/talker"
chmod +x "$work/solver" "$work/slow" "$work/deaf" "$work/talker"
SOLVER="$work/solver --quiet" ends 1 "$all" "$work/solved" . 4
sed 's/	-	\([0-9]\)	/	0	\1	/' table >"$work/wanted"
same 'with a solver' "$work/wanted"
awk -F '\t' 'NR > 1 && !($10 ~ /^[0-9.]+$/ && $11 ~ /^[1-9][0-9]*$/) { exit 1 }' "$work/table" || fail "measured: $(cat "$work/table")"

# Rows of another run are refused: another solver, another program, `success` on, and rows of which nobody says whose they are.
SOLVER="$work/talker" ends 5 "$all" "$work/solved" . 4
says 'has the rows of another run'
SOLVER="$work/solver --quiet" PRINT_SUCCESS=on ends 5 "$one" "$work/solved" plain/sudoku.smt2
says 'has the rows of another run'
printf '#!/bin/sh\ncase $* in --version) echo smtcheck 9.9.9; exit 0;; esac\nexec %s "$@"\n' "$SMTCHECK" >"$work/newer"
chmod +x "$work/newer"
SMTCHECK="$work/newer" SOLVER="$work/solver --quiet" ends 5 "$all" "$work/solved" . 4
says 'smtcheck 9.9.9'
mkdir "$work/nobody"
echo row >"$work/nobody/a.row"
ends 5 "$all" "$work/nobody" . 4
says 'no run.txt'

# A program built anew under its old version is another one.
printf '#!/bin/sh\nexec %s "$@"\n' "$SMTCHECK" >"$work/rebuilt"
chmod +x "$work/rebuilt"
SMTCHECK="$work/rebuilt" SOLVER="$work/solver --quiet" ends 5 "$all" "$work/solved" . 4
says 'there `sha256: '

# Options of the program: each run has them, run.txt and the object of a script keep them, and other options are another run. A script has
# its model item for a label, which the profile `wide` sets aside, and one has reals; no step is enough for sudoku; an `unsat` is not strictly valid.
export SMTCHECK_OPTIONS='--profile wide'
ends 0 "$one" "$work/wide" plain/labels.smt2
[ "$(fields "$work/wide/plain/labels.smt2.row" 3-5)" = '0	valid	1' ] || fail "--profile wide: $(cat "$work/wide/plain/labels.smt2.row")"
grep -qx 'options: --profile wide' "$work/wide/run.txt" || fail "the options of a run: $(cat "$work/wide/run.txt")"
grep -qx "sha256: $(python3 -c 'import hashlib, sys; print(hashlib.sha256(open(sys.argv[1], "rb").read()).hexdigest())' "$SMTCHECK")" "$work/wide/run.txt" ||
    fail "the program of a run: $(cat "$work/wide/run.txt")"
grep -qF '"options": ["--profile", "wide"]' "$work/wide/plain/labels.smt2.json" || fail "the options of a script: $(cat "$work/wide/plain/labels.smt2.json")"
ends 1 "$all" "$work/wide" . 4
[ "$(grep -c '	0	valid	' "$work/table")" = 9 ] || fail "a folder with --profile wide: $(cat "$work/table")"
echo '(set-logic QF_BV)(push)(check-sat)(pop)' >"$work/push.smt2"
(cd "$work" && ends 0 "$top/collections/taken.sh" push.smt2)
SMTCHECK_OPTIONS='--profile base' ends 5 "$one" "$work/wide" plain/unsat.smt2
says 'has the rows of another run: there `options: --profile wide`, now `options: --profile base`'
# With `--solver` the program knows whether it prints `success`, unless PRINT_SUCCESS says it.
export SMTCHECK_OPTIONS='--solver z3'
ends 0 "$one" "$work/named" plain/labels.smt2
[ "$(fields "$work/named/plain/labels.smt2.row" 3-5)" = '0	valid	1' ] || fail "--solver z3: $(cat "$work/named/plain/labels.smt2.row")"
grep -qx 'print-success: as --solver' "$work/named/run.txt" || fail "the options of a run: $(cat "$work/named/run.txt")"
PRINT_SUCCESS=off ends 5 "$one" "$work/named" plain/labels.smt2
says 'has the rows of another run'
PRINT_SUCCESS=on ends 0 "$one" "$work/named_on" plain/labels.smt2
[ "$(fields "$work/named_on/plain/labels.smt2.row" 9)" = 'fault P2 at command 1, answer 1' ] || fail "success on: $(cat "$work/named_on/plain/labels.smt2.row")"
SMTCHECK_OPTIONS=--solver=smtinterpol ends 0 "$one" "$work/smtinterpol" plain/labels.smt2
[ "$(fields "$work/smtinterpol/plain/labels.smt2.row" 9)" = 'fault P2 at command 1, answer 1' ] || fail "--solver=smtinterpol: $(cat "$work/smtinterpol/plain/labels.smt2.row")"
(cd "$work" && ends 0 "$top/collections/taken.sh" push.smt2)
export SMTCHECK_OPTIONS='--steps 0'
ends 0 "$one" "$work/steps" plain/sudoku.smt2
[ "$(fields "$work/steps/plain/sudoku.smt2.row" 4,9 | sed 's/ at command.*: /: /')" = 'not decided	check 1: too long' ] ||
    fail "--steps 0: $(cat "$work/steps/plain/sudoku.smt2.row")"
export SMTCHECK_OPTIONS=--strict
mkdir "$work/strictly"
cp plain/unsat.* plain/sudoku.* "$work/strictly"
ends 2 "$all" "$work/strict" "$work/strictly"
[ "$(tail -n +2 "$work/table" | cut -f 3-8)" = '0	valid	1	0	0	0
2	not strict	0	0	0	1' ] || fail "--strict: $(cat "$work/table")"
ends 0 "$top/collections/table.sh" --fails-on 'not decided' "$work/strict"
ends 2 "$top/collections/table.sh" --fails-on 'not strict' "$work/strict"
ends 0 "$top/collections/taken.sh" plain/unsat.smt2
# A misspelt option, or one that prints no report, keeps nothing, and writes no run.txt that would refuse the right one.
for wrong in '--profile wied' '--print-success on' --stepps --explain=json '--strict --explain=sarif'; do
    SMTCHECK_OPTIONS=$wrong ends 5 "$one" "$work/misspelt" plain/sudoku.smt2
    SMTCHECK_OPTIONS=$wrong ends 5 "$all" "$work/misspelt" . 4
    SMTCHECK_OPTIONS=$wrong ends 5 "$top/collections/taken.sh" plain/sudoku.smt2
done
ends 0 "$one" "$work/misspelt" plain/sudoku.smt2
unset SMTCHECK_OPTIONS

# The organiser's own mistakes: nothing is run, and nothing is kept.
SMTCHECK=smtchekc ends 5 "$all" "$work/none" . 4
says 'smtchekc is not there'
SMTCHECK=smtchekc ends 5 "$one" "$work/none" plain/sudoku.smt2
SMTCHECK=/bin/true ends 5 "$all" "$work/none" . 4
SOLVER='z33 -smt2' ends 5 "$all" "$work/none" . 4
says 'z33 is not there'
SOLVER='z33 -smt2' ends 5 "$one" "$work/none" plain/sudoku.smt2
MEMORY_KB=100 ends 5 "$all" "$work/none" . 4
SOLVER="sh -c 'exit 127'" ends 5 "$all" "$work/none" . 4
says 'ends with 127 on a script of one check'
SOLVER_SECONDS=soon ends 5 "$all" "$work/none" . 4
mkdir "$work/empty"
ends 5 "$all" "$work/none" "$work/empty" 4
says 'no script (*.smt2) stands below'
ends 5 "$all" "$work/none" "$work/missing" 4
! find "$work/none" -name '*.row' 2>/dev/null | grep -q . || fail 'a row of a run that was refused'

# A solver that is stopped, also one that does not listen: what it printed is checked, and the row is not kept, unless that is asked for.
SOLVER="$work/slow" SOLVER_SECONDS=1 ends 4 "$one" "$work/slowly" plain/sudoku.smt2
[ "$(fields "$work/slowly/plain/sudoku.smt2.again" 1-9)" = 'plain/sudoku.smt2	124	3	solver stopped	0	0	1	0	fault P1 at command 50' ] ||
    fail "a slow solver: $(cat "$work/slowly/plain/sudoku.smt2.again")"
SOLVER="$work/slow" SOLVER_SECONDS=1 ends 0 "$one" --keep-stopped "$work/slowly" plain/sudoku.smt2
[ ! -e "$work/slowly/plain/sudoku.smt2.again" ] && [ -e "$work/slowly/plain/sudoku.smt2.row" ] || fail 'the row of a stopped solver is not kept'
(SOLVER="$work/deaf" SOLVER_SECONDS=1 "$one" "$work/deafly" plain/sudoku.smt2 2>&1 || echo "$?" >"$work/deafened") &
deaf=$!
# One that crashes would crash again: its row is kept. A check that crashes has no verdict, and no row that is kept.
printf '#!/bin/sh\nulimit -c 0\necho sat\nkill -ABRT $$\n' >"$work/aborts"
printf '#!/bin/sh\nulimit -c 0\ncase $* in --version) echo smtcheck 0; exit 0;; esac\nkill -SEGV $$\n' >"$work/crashes"
chmod +x "$work/aborts" "$work/crashes"
SOLVER="$work/aborts" ends 0 "$one" "$work/aborted" plain/sudoku.smt2
[ "$(fields "$work/aborted/plain/sudoku.smt2.row" 2-4)" = '134	3	solver stopped' ] || fail "a solver that aborts: $(cat "$work/aborted/plain/sudoku.smt2.row")"
ends 2 "$top/collections/table.sh" "$work/aborted"
SMTCHECK="$work/crashes" ends 4 "$one" "$work/crashed" plain/sudoku.smt2
[ "$(fields "$work/crashed/plain/sudoku.smt2.again" 3,4)" = '139	no report' ] || fail "a check that crashes: $(cat "$work/crashed/plain/sudoku.smt2.again")"
ends 4 "$top/collections/table.sh" "$work/crashed"
# One that prints no answers.
SOLVER="$work/talker" ends 1 "$all" "$work/talked" .
[ "$(fields "$work/talked/plain/sudoku.smt2.row" 4)" = 'answers not taken' ] || fail "rubbish: $(cat "$work/talked/plain/sudoku.smt2.row")"
# A check that is stopped has no verdict.
printf '#!/bin/sh\ncase $* in --version) echo smtcheck 0; exit 0;; esac\nexec sleep 60\n' >"$work/sleeper"
chmod +x "$work/sleeper"
SMTCHECK="$work/sleeper" CHECK_SECONDS=1 ends 4 "$one" "$work/stopped" plain/sudoku.smt2
[ "$(fields "$work/stopped/plain/sudoku.smt2.again" 3-5)" = '124	stopped	-' ] || fail "a check that is stopped: $(cat "$work/stopped/plain/sudoku.smt2.again")"
# Memory that runs out is no verdict. A run with more is another one.
"$top/tests/chain.sh" 300000 1 >"$work/chain.smt2"
echo 'sat ()' >"$work/chain.txt"
cd "$work"
MEMORY_KB=30000 ends 4 "$one" small chain.smt2
[ "$(fields small/chain.smt2.again 3,4,9)" = '4	no report	smtcheck: memory' ] || fail "little memory: $(cat small/chain.smt2.again)"
ends 5 "$one" small chain.smt2
says 'there `memory: 30000 kB`, now `memory: - kB`'
ends 0 "$one" large chain.smt2
[ "$(fields large/chain.smt2.row 3,4)" = '0	valid' ] || fail "memory enough: $(cat large/chain.smt2.row)"
[ "$(fields large/chain.smt2.row 13)" -ge 50 ] || fail "the memory of a check: $(cat large/chain.smt2.row)"
CHECK_SECONDS=59 ends 5 "$one" large chain.smt2
says 'seconds: 60 for the solver, 59 for the check'
cd "$top/tests/collection"
# A missing script is no verdict either.
ends 4 "$one" "$work/missing" plain/none.smt2
[ "$(fields "$work/missing/plain/none.smt2.again" 3,4,9)" = '4	no report	smtcheck: script' ] || fail "a missing script: $(cat "$work/missing/plain/none.smt2.again")"

# Rows that can't lie: each script has one of its own, whatever its name is, and no name moves the cursor of a terminal.
mkdir -p "$work/names/in/up" "$work/names/in/x.smt2.row"
right='(declare-const p Bool)(assert p)(check-sat)(get-model)'
for name in 'a b' "$(printf 'a\tb')" "$(printf 'a\rb')" "$(printf 'a\nb')" "$(printf 'a\033[2Jb')" "$(printf 'a\377b')" 'a%09b' x x.smt2.row/y; do
    echo "$right" >"$work/names/in/$name.smt2"
    echo 'sat ((define-fun p () Bool true))' >"$work/names/in/$name.txt"
done
echo 'sat ((define-fun p () Bool false))' >"$work/names/in/$(printf 'a\tb').txt"
echo 'sat ((define-fun p () Bool false))' >"$work/names/in/x.txt"
cp "$work/names/in/x.smt2" "$work/names/a.smt2"
cp "$work/names/in/x.txt" "$work/names/a.txt"
cp "$work/names/in/a b.smt2" "$work/names/in/up/a.smt2"
cp "$work/names/in/a b.txt" "$work/names/in/up/a.txt"
cd "$work/names/in"
for _ in first second; do
    ends 1 "$all" ../told . 4
    [ "$(tail -n +2 "$work/table" | cut -f 1,4)" = 'a b.smt2	valid
a%09b.smt2	invalid
a%0Ab.smt2	valid
a%0Db.smt2	valid
a%1B[2Jb.smt2	valid
a%2509b.smt2	valid
a%FFb.smt2	valid
up/a.smt2	valid
x.smt2	invalid
x.smt2%2Erow/y.smt2	valid' ] || fail "names: $(cat "$work/table")"
done
ends 0 "$one" ../told ../a.smt2
[ "$(fields '../told/%2E%2E/a.smt2.row' 1,4)" = '%2E%2E/a.smt2	invalid' ] || fail 'a script outside'
ends 0 "$one" ../told "$work/names/a.smt2"
[ "$(fields "../told/%2F${work#/}/names/a.smt2.row" 4)" = invalid ] || fail 'a script by its whole name'
cd "$top/tests/collection"

# One run has a folder of rows, or several have a script each.
printf '#!/bin/sh\necho sat\ncase $1 in *sudoku*) exec sleep 60;; esac\n' >"$work/sleepy"
chmod +x "$work/sleepy"
python3 - "$work/sleepy" "$one" "$all" "$work/locked" <<'END' || fail 'two runs at once'
import os, subprocess, sys, time
slow, one, all_of, results = sys.argv[1:]
def run(words, seconds=None):
    environment = dict(os.environ, SOLVER=slow, SOLVER_SECONDS="3")
    return subprocess.Popen(words, env=environment, stdout=subprocess.DEVNULL, stderr=subprocess.PIPE)
first = run([one, results, "plain/sudoku.smt2"])
while not os.path.exists(results + "/plain/sudoku.smt2.answers"):
    time.sleep(0.05)
same, other, folder = run([one, results, "plain/sudoku.smt2"]), run([one, results, "plain/unsat.smt2"]), run([all_of, results, "."])
told = same.communicate()[1], folder.communicate()[1]
assert same.returncode == 5 and b"another run is at work on plain/sudoku.smt2" in told[0], told
assert folder.returncode == 5 and b"another run is at work" in told[1], told
assert first.wait() == 4 and other.wait() == 0, (first.returncode, other.returncode)
END

# A refuted model counts wherever it stands, and the line is of the report alone.
mkdir "$work/lines"
printf '%s' "$right(get-info :a)" >"$work/lines/then.smt2"
echo 'sat ((define-fun p () Bool false))' >"$work/lines/then.txt"
printf '(set-info :status unsat);(set-info :status sat)\n%s(set-info :source "(set-info :status sat)")' "$right" >"$work/lines/lost.smt2"
echo unsat >"$work/lines/lost.txt"
cd "$work/lines"
SMTCHECK_OPTIONS=--explain ends 1 "$all" ../refuted .
[ "$(tail -n +2 "$work/table" | cut -f 1,3,4,6,9,16)" = 'lost.smt2	3	no answer	0	fault P1 at command 5	unsat
then.smt2	3	invalid	1	check 1 at command 3: sat, model of command 4: refuted by the assertion of command 2	-' ] ||
    fail "lines: $(cat "$work/table")"
grep -q '"explanation": \["[^"]*then.smt2:1:[0-9]*: check 1, command 3: (check-sat)", "[^"]*then.smt2:1:[0-9]*: claim, command 2: ' ../refuted/then.smt2.json ||
    fail "the explanation: $(cat ../refuted/then.smt2.json)"
ends 1 "$top/collections/table.sh" --fails-on invalid ../refuted
ends 2 "$top/collections/table.sh" --fails-on 'no answer' ../refuted
awk -F '\t' 'NR > 1 && !($14 == "-" && $15 ~ /^[0-9.]+$/) { exit 1 }' "$work/table" || fail "seconds of the processor: $(cat "$work/table")"
printf '#!/bin/sh\ncase $1 in --version) echo solver 7; exit 0;; esac\necho sat\n' >"$work/seven"
chmod +x "$work/seven"
SOLVER="$work/seven" ends 0 "$one" ../by_version lost.smt2
grep -qx 'solver version: solver 7' ../by_version/run.txt || fail "the solver's version: $(cat ../by_version/run.txt)"
sed -i s/7/8/ "$work/seven"
SOLVER="$work/seven" ends 5 "$one" ../by_version then.smt2
says 'there `solver version: solver 7`, now `solver version: solver 8`'
cd "$top/tests/collection"

# Three solvers on 300 scripts: one has a wrong `unsat`, one a wrong model, and of one script nobody knows who is right.
python3 - "$work/three" <<'END'
import os, sys
def script(number):
    if number == 130:
        return "(set-logic QF_LIA)(declare-const x Int)(assert (= (div x 0) 1))(check-sat)(get-model)"
    wanted, term = (("sat", "p"), ("unsat", "(and p (not p))"))[number % 3 == 0]
    return f"(set-logic QF_UF)(set-info :status {wanted})(declare-const p Bool)(assert {term})(check-sat)(get-model)"
def answer(number, solver):
    if number == 130:
        return 'unsat (error "no")' if solver == "good" else "sat ((define-fun x () Int 0))"
    if number % 3 == 0 or (number, solver) == (70, "hasty"):
        return 'unsat (error "no")'
    return "sat ((define-fun p () Bool %s))" % ("false" if (number, solver) == (110, "sloppy") else "true")
for solver in ("good", "hasty", "sloppy"):
    folder = os.path.join(sys.argv[1], solver)
    os.makedirs(folder)
    for number in range(300):
        for end, text in (("smt2", script(number)), ("txt", answer(number, solver))):
            with open(os.path.join(folder, "%03d.%s" % (number, end)), "w") as file:
                file.write(text)
END
for solver in good hasty sloppy; do
    cd "$work/three/$solver"
    "$all" "$work/rows/$solver" . 8 >"$work/table" 2>"$work/errors" || [ $? -le 2 ] || fail "a solver of three: $(cat "$work/errors")"
done
cd "$work/rows"
compare=$top/collections/compare.sh
ends 1 "$compare" --remarks good hasty sloppy
[ "$(cat "$work/table")" = 'script	check	logic	expected	good	hasty	sloppy	known	remark
070.smt2	1	QF_UF	sat	sat confirmed	unsat	sat confirmed	sat	hasty is wrong
110.smt2	1	QF_UF	sat	sat confirmed	sat confirmed	sat refuted	sat	sloppy is wrong
130.smt2	1	QF_LIA	-	unsat	sat not decided	sat not decided	-	open: the answers differ' ] || fail "three solvers: $(cat "$work/table")"
[ "$(cut -f 1-5 "$work/errors")" = 'logic	solver	errors	correct	unsat
all	good	0	199	101
all	hasty	1	198	100
all	sloppy	1	198	100
QF_LIA	good	0	0	1
QF_LIA	hasty	0	0	0
QF_LIA	sloppy	0	0	0
QF_UF	good	0	199	100
QF_UF	hasty	1	198	100
QF_UF	sloppy	1	198	100' ] || fail "scores: $(cat "$work/errors")"
ends 1 "$compare" hasty good
[ "$(wc -l <"$work/table")" = 301 ] || fail "two solvers: $(head -n 3 "$work/table")"
ends 1 "$compare" --remarks sloppy good
cp -r good better
ends 0 "$compare" --remarks good better
ends 5 "$compare" good
ends 5 "$compare" good none

# A page of one file, which needs no network; a browser shows each row, and marks what is wrong or open. And tests for a server.
ends 1 "$compare" --html page.html good hasty sloppy
ends 1 "$top/collections/table.sh" --html sloppy.html --junit sloppy.xml sloppy
! grep -v 'http://www.w3.org/2000/svg' page.html sloppy.html | grep -q 'https\{0,1\}:' || fail 'a page that needs a network'
python3 - sloppy.xml <<'END' || fail "tests for a server: $(head -c 500 sloppy.xml)"
import sys, xml.etree.ElementTree
suite = xml.etree.ElementTree.parse(sys.argv[1]).getroot()
failed = [case.get("name") for case in suite if case.find("failure") is not None]
assert suite.get("tests") == "300" and suite.get("failures") == "2" and failed == ["110.smt2", "130.smt2"], failed
END
mkdir many
for number in 1 2 3 4 5 6 7; do
    for row in good/*.json; do sed "s/\"script\": \"/&$number-/" "$row" >"many/$number-${row#good/}"; done
done
ends 4 "$top/collections/table.sh" --html many.html many
if command -v chromium >"$work/found"; then
    for page in page:300:2:1 sloppy:300:1:1 many:2100:0:0; do
        IFS=: read -r name rows bad open <<END
$page
END
        timeout 120 chromium --headless --no-sandbox --disable-gpu --dump-dom "file://$PWD/$name.html" >shown 2>"$work/errors" || fail "a browser: $(cat "$work/errors")"
        [ "$(grep -o '<span id="count">[^<]*' shown)" = "<span id=\"count\">$rows of $rows" ] &&
            [ "$(grep -o '<tr class="bad">' shown | wc -l)" = "$bad" ] && [ "$(grep -o '<tr class="open">' shown | wc -l)" = "$open" ] ||
            fail "the page $name: $(grep -o '<span id="count">[^<]*' shown), $(grep -o '<tr class="[a-z]*">' shown | sort | uniq -c)"
    done
else
    echo 'collections: there is no chromium, so no page is shown'
fi
cd "$top/tests/collection"

# A new organiser: forty scripts and two solvers. One is killed half-way through the folder, and the disk is full for a script of the other.
# The table says so, and the same command again mends it.
mkdir "$work/forty"
for copy in 1 2 3 4; do
    cp -r . "$work/forty/$copy"
done
cat >"$work/killed" <<END
#!/bin/sh
case \$1 in */[34]/*) [ -e "$work/mended" ] || kill -9 \$\$ ;; esac
exec cat "\${1%.smt2}.txt"
END
chmod +x "$work/killed"
cd "$work"
SOLVER="$work/killed" ends 1 "$all" first forty 8
[ "$(cut -f 2 table | grep -c '^137$')" = 20 ] || fail "killed half-way: $(cat table)"
says '20 not kept: the same command runs them again'
[ "$(find first -name '*.row' | wc -l)" = 20 ] || fail 'rows of a solver that was killed'
touch "$work/mended"
SOLVER="$work/killed" ends 1 "$all" first forty 8
[ "$(tail -n +2 table | cut -f 2,4 | LC_ALL=C sort | uniq -c | tr -s ' ')" = ' 4 0	invalid
 4 0	not decided
 4 0	script not taken
 28 0	valid' ] || fail "mended: $(cat table)"
for file in answers report row.new; do
    mkdir -p "full_$file/forty/1/plain"
    ln -s /dev/full "full_$file/forty/1/plain/unsat.smt2.$file"
    SOLVER="$work/talker" ends 1 "$all" "full_$file" forty 8
    says 'No space left on device: no row'
    grep '^forty/1/plain/unsat' table >row
    [ "$(fields row 4,9)" = 'no row	No space left on device' ] || fail "a full disk: $(cat row)"
    rm -f "full_$file/forty/1/plain/unsat.smt2.$file"
    SOLVER="$work/talker" ends 1 "$all" "full_$file" forty 8
    grep '^forty/1/plain/unsat' table >row
    [ "$(fields row 2-4)" = '0	0	valid' ] || fail "a disk with room again: $(cat row)"
done

# A run that gets a signal leaves no row of what it had not done, ends its solvers, and goes on with the same command.
mkdir "$work/wait"
cp "$work/forty/1/plain/unsat.smt2" "$work/wait"
cat >"$work/waiting" <<END
#!/bin/sh
case \$1 in */unsat.smt2) [ -e "$work/awake" ] || { echo \$\$ >"$work/asleep"; exec sleep 50; } ;; esac
echo unsat
END
chmod +x "$work/waiting"
SOLVER="$work/waiting" "$all" waited wait >table 2>errors &
running=$!
for _ in 1 2 3 4 5 6 7 8 9 10 11 12 13 14 15 16 17 18 19 20; do [ -s asleep ] && break; sleep 0.25; done
[ -s asleep ] || fail 'the solver that waits did not start'
kill -TERM "$running"
status=0
wait "$running" || status=$?
[ "$status" = 143 ] && [ ! -e waited/wait/unsat.smt2.row ] || fail "a run that got a signal ends with $status"
! kill -0 "$(cat asleep)" 2>/dev/null || fail 'the solver of a run that is stopped runs on'
touch awake
SOLVER="$work/waiting" ends 0 "$all" waited wait

# The commands of a CI file, as EMBEDDING has it: a refuted model fails, and refused answers do not.
mkdir -p "$work/ci/bin" "$work/ci/scripts"
ln -s "$top/collections" "$work/ci/collections"
ln -s "$SMTCHECK" "$work/ci/bin/smtcheck"
printf '#!/bin/sh\ncat "${1%%.smt2}.txt"\n' >"$work/ci/bin/z3"
chmod +x "$work/ci/bin/z3"
cp "$top"/tests/collection/plain/labels.* "$top"/tests/collection/plain/unsat.* "$work/ci/scripts"
sed -n '/^```yaml$/,/^```$/s/^    - \([Sc].*\)$/\1/p' "$top/docs/EMBEDDING.md" >"$work/ci/commands"
[ "$(wc -l <"$work/ci/commands")" = 2 ] || fail "the CI file: $(cat "$work/ci/commands")"
ci() {
    (cd "$work/ci" && unset SMTCHECK && PATH=$work/ci/bin:$PATH ends "$1" sh -e commands)
}
ci 0
grep -q 'tests="2" failures="0"' "$work/ci/models.xml" || fail "the tests of a CI file: $(cat "$work/ci/models.xml")"
sed '$d' "$work/ci/scripts/labels.txt" >"$work/ci/scripts/cut.txt"
cp "$top/tests/collection/plain/labels.smt2" "$work/ci/scripts/cut.smt2"
ci 0
cp "$top/tests/collection/plain/colours, one changed.smt2" "$work/ci/scripts/wrong.smt2"
cp "$top/tests/collection/plain/colours, one changed.txt" "$work/ci/scripts/wrong.txt"
ci 1

# A line of progress, on a terminal alone.
python3 - "$all" "$work/forty/1" <<'END' || fail 'the line of progress'
import os, pty, subprocess, sys, tempfile
ours, theirs = pty.openpty()
with tempfile.TemporaryDirectory() as results:
    subprocess.run([sys.argv[1], results, sys.argv[2]], stdout=subprocess.DEVNULL, stderr=theirs, stdin=subprocess.DEVNULL)
os.close(theirs)
told = b""
while True:
    try:
        piece = os.read(ours, 4096)
    except OSError:
        break
    if not piece:
        break
    told += piece
assert b"\r10 of 10 scripts, 1 invalid, 0 to run again" in told, told
END

wait "$deaf" || true
[ "$(cat "$work/deafened")" = 4 ] && [ "$(fields "$work/deafly/plain/sudoku.smt2.again" 2,4)" = '137	solver stopped' ] ||
    fail "a solver that ignores TERM: $(cat "$work/deafly/plain/sudoku.smt2.again")"

# Each command of docs/COLLECTIONS.md, in a folder with scripts, a suite and solvers that print what is kept.
mkdir -p page/bin page/regress
ln -s "$top/collections" page/collections
cp -r "$work/forty/1" page/scripts
cp -r "$work/forty/1/plain" page/regress
ln -s "$SMTCHECK" page/bin/smtcheck
sed 's/\*sudoku\*/none/' "$work/talker" >page/bin/z3
cp "$work/solver" page/my-solver
printf '#!/bin/sh\necho unsat\n' >page/bin/bitwuzla
chmod +x page/bin/z3 page/bin/bitwuzla page/my-solver
cp page/scripts/plain/colours.smt2 page/script.smt2
cp page/scripts/plain/colours.txt page/script.txt
awk -v to="$work/page/block" '/^```sh$/ { n++; on = 1; next } /^```$/ { on = 0 } on { print >(to n) }' "$top/docs/COLLECTIONS.md"
cd page
sed 's/^plain/regress\/plain/; s/	-	\([0-9]\)	/	0	\1	/' ../forty/1/table | grep -v '^levels' >regress/table
ran=0
for block in $(ls | grep '^block' | sort -V); do
    wanted=0
    case $(cat "$block") in
        *SBATCH*)
            rm -rf results
            tasks=
            for task in 1 2 3 4 5 6 7 8 9 10; do
                SLURM_ARRAY_TASK_ID=$task PATH=$work/page/bin:$PATH sh "$block" &
                tasks="$tasks $!"
            done
            for task in $tasks; do wait "$task" || fail 'a task of an array'; done
            [ "$(find results -name '*.row' | wc -l)" = 10 ] || fail 'the tasks of an array left out a script'
            ran=$((ran + 1))
            continue ;;
        *parallel*)
            command -v parallel >/dev/null || { echo 'collections: there is no parallel, so its command is not tried'; continue; }
            rm -rf results
            wanted=1 ;;
        *check_all.sh*regress*) ;;
        *check_all.sh* | *--fails-on* | *taken.sh*) wanted=1 ;;
    esac
    (unset SMTCHECK; PATH=$work/page/bin:$PATH; ends "$wanted" sh "$block") || { echo "collections: of the page: $(cat "$block")"; exit 1; }
    ran=$((ran + 1))
    case $(cat "$block") in
        *awk*) [ "$(cat "$work/table")" = results/scripts/plain/labels.smt2.row ] || fail "which rows: $(cat "$work/table")" ;;
        *taken.sh*)
            [ "$(grep -c '^scripts/.*taken' "$top/docs/COLLECTIONS.md")" = 2 ] || fail 'the page shows no scripts that are taken'
            grep '^scripts/.*taken' "$top/docs/COLLECTIONS.md" | grep -vxF -f "$work/table" >"$work/other" || true
            [ ! -s "$work/other" ] || fail "the page shows $(cat "$work/other")" ;;
        *check_all.sh*scripts*) [ "$(cut -f 4 table | grep -c '^valid$')" = 7 ] || fail "the table: $(cat table)" ;;
        *bitwuzla*) ! grep -q get-model read.smt2 || fail 'a model is asked for behind unsat' ;;
    esac
done
[ "$ran" -ge 9 ] || fail "only $ran commands of the page were run"
cd "$top/tests/collection"
sed -n '/^script	/,/^```$/p' "$top/docs/COLLECTIONS.md" | sed '$d' | grep -vxF -f table >"$work/other" || true
[ ! -s "$work/other" ] || fail "docs/COLLECTIONS.md shows other rows: $(cat "$work/other")"
