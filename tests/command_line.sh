#!/bin/sh
# Runs the program on command lines: which files, which `--solver`, `--print-success` and `--profile` they name, which `--steps` they may name,
# what `--explain`, `--hints` and `--strict` change, or how they are refused, to the byte. Needs what `rt ci` has built, and Python 3 for a
# terminal. Says nothing where all is well.
set -e
cd "$(dirname "$0")/.."
top=$PWD
program=${SMTCHECK:-$top/crates/smtcheck/out/smtcheck}
work=$(mktemp -d)
trap 'rm -rf "$work"' EXIT
cd "$work"

fail() {
    echo "command line: $1: status $status, $(cat output errors)"
    exit 1
}

# Runs the program with the words of a line.
run() {
    status=0
    # (the words stand between spaces)
    "$program" $1 >output 2>errors || status=$?
}

# named LINE SCRIPT ANSWERS PRINT_SUCCESS: the line names these two files, and says this of `success`. A line that named others, or
# said something else, would have another status.
named() {
    rm -f ./*
    echo '(set-logic QF_UF)' >"./$2"
    if [ "$4" = on ]; then echo success; fi >"./$3"
    run "$1"
    [ "$status" = 0 ] || fail "$1"
    if [ "$4" = on ]; then :; else echo success; fi >"./$3"
    run "$1"
    [ "$status" = 3 ] || fail "$1"
}

named 'in.smt2 out.txt' in.smt2 out.txt on
named 'in.smt2 ./-' in.smt2 - on
named '-- -a --help' -a --help on
named 'a -- -b' a -b on
named '--print-success on a b' a b on
named '--print-success off a b' a b off
named '--print-success=off a b' a b off
named 'a --print-success off b' a b off
named 'a b --print-success=on' a b on
named '--print-success off -- -a -b' -a -b off
named '-- --print-success=off b' --print-success=off b on
named '--steps 0 a b' a b on
named '--steps 18446744073709551614 a b' a b on
named '--steps=5 a b' a b on
named '--steps +05 a b' a b on
named 'a b --steps 5' a b on
named 'a --steps 5 b' a b on
named '--print-success off --steps 5 a b' a b off
named 'a --steps=5 --print-success=off b' a b off
named '-- --steps=5 b' --steps=5 b on
named '--profile base a b' a b on
named '--profile=wide a b' a b on
named 'a b --profile wide' a b on
named '--print-success off --profile wide --steps 5 a b' a b off
named 'a --profile=base --print-success=off b' a b off
named '-- --profile=wide b' --profile=wide b on
for solver in z3 cvc5 cvc4 bitwuzla boolector; do
    named "--solver $solver a b" a b off
    named "a b --solver=$solver" a b off
    named "--solver $solver --print-success on a b" a b on
    named "--print-success on a --solver $solver b" a b on
    named "--profile base --solver $solver a b" a b off
done
named '--solver smtinterpol a b' a b on
named '--print-success=off --solver=smtinterpol a b' a b off
named '-- --solver=z3 b' --solver=z3 b on
named '--hints on --steps 5 --explain --profile wide --print-success off a b --solver smtinterpol' a b off
for words in '--hints on' '--hints off' '--hints=on' '--hints=off'; do named "a $words b" a b on; done
named '--explain a b' a b on
named 'a b --explain' a b on
named '--explain --print-success off --steps 5 a b' a b off
named '-- --strict --explain' --strict --explain on
for form in text json sarif; do
    named "--explain=$form a b" a b on
    named "a b --explain=$form" a b on
    named "--explain=$form --print-success off --steps 5 a b" a b off
    named "-- --explain=$form x" "--explain=$form" x on
    named "--explain $form b" "$form" b on
done
rm -f ./*

# profile WANTED LINE: a script of the profile `wide` has this status with this line.
profile() {
    echo '(push)' >script
    : >answers
    run "--print-success off $2 script answers"
    [ "$status" = "$1" ] && [ ! -s errors ] || fail "$2"
}
profile 3 ''
profile 3 '--profile base'
profile 3 '--profile=base'
profile 0 '--profile wide'
profile 0 '--profile=wide'
for solver in z3 cvc5 cvc4 bitwuzla boolector smtinterpol; do
    profile 0 "--solver $solver"
    profile 0 "--profile wide --solver $solver"
    profile 3 "--profile base --solver $solver"
    profile 3 "--solver $solver --profile base"
done
rm -f ./*

# strict WANTED SCRIPT ANSWERS: with --strict the status is this one, the report stays, and without it the status is 0 in place of 2.
strict() {
    printf '%s' "$2" >script
    printf '%s' "$3" >answers
    run '--print-success off script answers'
    cp output plain
    [ "$status" = "$1" ] || [ "$1$status" = 20 ] || fail "$2, $3"
    for line in '--strict --print-success off script answers' '--print-success off script --strict answers'; do
        run "$line"
        [ "$status" = "$1" ] && cmp -s output plain && [ ! -s errors ] || fail "$line: $2, $3"
    done
}
model='((define-fun p () Bool true))'
strict 0 '(declare-const p Bool)(assert p)(check-sat)(get-model)' "sat $model"
strict 0 '(declare-const p Bool)(assert p)(check-sat)(get-model)(check-sat)(get-model)' "sat $model sat $model"
strict 2 '(declare-const p Bool)(assert p)(check-sat)(get-model)(check-sat)' "sat $model unsat"
strict 2 '(declare-const p Bool)(check-sat)' unknown
strict 2 '(check-sat)' '(error "no")'
strict 2 '' ''
strict 2 '(check-sat)' sat
strict 1 '(declare-const p Bool)(assert (not p))(check-sat)(get-model)' "sat $model"
strict 3 '(check-sat)' ''
rm -f ./*

# hinted SUCCESS TEXT SCRIPT ANSWERS: with --explain standard error is one hint with this in it, or nothing where TEXT is `-`; and without
# --explain it is nothing.
hinted() {
    printf '%b' "$3" >script
    printf '%b' "$4" >answers
    run "--print-success $1 script answers"
    [ ! -s errors ] || fail "$2: a hint without --explain"
    run "--explain --print-success $1 script answers"
    if [ "$2" = - ]; then
        [ ! -s errors ] || fail "a hint for $3"
    else
        [ "$(wc -l <errors)" = 1 ] && grep -q "^hint: .*$2" errors || fail "$2"
    fi
}
hinted on 'add --print-success off' '(set-logic ALL)(check-sat)' 'sat'
hinted on 'add --print-success off' '(declare-const p Bool)(check-sat)' ' ; z3\nsat'
hinted on - '(check-sat)' 'success'
hinted on - '(echo "a")(check-sat)' '"a" success'
hinted off 'leave --print-success off out' '(declare-const p Bool)(check-sat)' 'success sat'
hinted off - '(check-sat)' '(model)'
hinted on 'exchanged' 'sat' '(check-sat)'
hinted off 'exchanged' 'sat\n((define-fun p () Bool true))\n' '; a script\n(set-logic ALL)\n(check-sat)\n'
hinted on - '(minimize x)' 'sat'
hinted on - '(minimize x)' '(set-logic ALL)'
hinted on - 'sat' 'unsat'
hinted on - '(check-sat-using smt)(check-sat)' ''
hinted on 'compressed' '\037\213x' 'sat'
hinted on 'compressed' '(check-sat)' '\357\273\277sat'
hinted on 'compressed' '\377\376(\000c\000' 'sat'
hinted on - ')' 'sat'
hinted on 'model.user_functions=false' '(assert (! true :named a))(check-sat)(get-model)' 'success sat ((define-fun a () Bool true))'
hinted 'on --profile wide' - '(declare-sort U 0)(declare-const U!val!0 U)(check-sat)(get-model)' 'success success sat ((define-fun U!val!0 () U (as @1 U)))'
hinted on - '(declare-const a Bool)(check-sat)(get-model)' 'success sat ((define-fun a () Int 1))'
hinted on 'unsat' '(assert false)(check-sat)(get-model)' 'success unsat'
hinted on - '(assert false)(check-sat)(get-model)' 'success sat'
hinted on 'profile wide takes' '(push)(pop)' 'success success'
hinted on 'profile wide takes' '(declare-sort U 0)(declare-const a U)(check-sat)' 'success success unsat'
hinted on 'profile wide takes' '(define-const c Int 1)(check-sat)(get-model)(minimize c)' 'success sat ()'
hinted on 'profile wide takes' '(set-logic QF_UFLIRA)(check-sat)' 'success unsat'
hinted off 'profile wide takes' '(set-logic QF_NEW)(check-sat)' 'unsupported unsat'
hinted on - '(declare-sort U 1)(check-sat)' 'success unsat'
hinted on - '(define-const c String "a")(check-sat)' 'success unsat'
hinted on 'profile wide takes' '(define-const c Real 1.5)(check-sat)' 'success unsat'
hinted on - '(push 1)(minimize c)' 'success'
hinted 'on --profile wide' - '(push)(minimize c)' 'success'
deep=$(printf '%01100d' 0)
hinted on 'profile wide takes' "(assert $(echo "$deep" | sed 's/0/(not /g') true $(echo "$deep" | sed 's/0/)/g'))(check-sat)" 'success unsat'
hinted on - "(assert $(echo "$deep" | sed 's/0/(not /g') true)" 'success unsat'
rm -f ./*

# hint WANTED LINE: with this line standard error is a hint, or nothing; not a terminal, and then a terminal.
printf 'sat' >answers
printf '(set-logic ALL)(check-sat)' >script
hint() {
    run "$3 script answers"
    [ "$status" = 3 ] && [ "$(grep -c '^hint: ' errors)" = "$1" ] || fail "$3"
    seen=$(python3 -c '
import os, pty, subprocess, sys
ours, theirs = pty.openpty()
ran = subprocess.run(sys.argv[1:], stdout=subprocess.DEVNULL, stderr=theirs)
os.close(theirs)
try:
    said = os.read(ours, 4096)
except OSError:
    said = b""
print(ran.returncode, said.count(b"hint: "))' "$program" $3 script answers)
    [ "$seen" = "3 $2" ] || fail "$3: on a terminal $seen"
}
hint 0 1 ''
hint 1 1 '--explain'
hint 1 1 '--hints on'
hint 1 1 '--hints=on --explain'
hint 0 0 '--hints off'
hint 0 0 '--explain --hints off'
rm -f ./*

# refused LINE: the line is refused by the text on standard input, whole, with no report.
refused() {
    cat >wanted
    run "$1"
    [ "$status" = 5 ] && [ ! -s output ] && cmp -s errors wanted || fail "$1"
}

refused '' <<'END'
error: the following required arguments were not provided:
  <SCRIPT>
  <ANSWERS>

Usage: smtcheck <SCRIPT> <ANSWERS>

For more information, try '--help'.
END
for line in in.smt2 '--print-success off a'; do
    run "$line"
    [ "$status" = 5 ] && [ "$(head -n 1 errors)" = 'error: the following required arguments were not provided:' ] || fail "$line"
done
for line in 'a b --nonsense' '--nonsense'; do
    run "$line"
    [ "$status" = 5 ] && [ "$(head -n 1 errors)" = "error: unexpected argument '--nonsense' found" ] || fail "$line"
done
refused 'a b --nonsense' <<'END'
error: unexpected argument '--nonsense' found

  tip: to pass '--nonsense' as a value, use '-- --nonsense'

Usage: smtcheck <SCRIPT> <ANSWERS>

For more information, try '--help'.
END
refused 'a b c' <<'END'
error: unexpected argument 'c' found

Usage: smtcheck [OPTIONS] <SCRIPT> <ANSWERS>

For more information, try '--help'.
END
for value in yes OFF a; do
    refused "--print-success $value b" <<END
error: invalid value '$value' for '--print-success <on|off>'
  [possible values: on, off]

For more information, try '--help'.
END
done
for value in yes WIDE; do
    refused "--profile $value b" <<END
error: invalid value '$value' for '--profile <base|wide>'
  [possible values: base, wide]

For more information, try '--help'.
END
done
for value in Wide:wide widen:wide a:base; do
    refused "--profile ${value%:*} b" <<END
error: invalid value '${value%:*}' for '--profile <base|wide>'
  [possible values: base, wide]

  tip: a similar value exists: '${value#*:}'

For more information, try '--help'.
END
done
for line in 'a b --profile' '--profile= a b'; do
    refused "$line" <<'END'
error: a value is required for '--profile <base|wide>' but none was supplied
  [possible values: base, wide]

For more information, try '--help'.
END
done
for value in yes OFF; do
    refused "--hints $value a b" <<END
error: invalid value '$value' for '--hints <on|off>'
  [possible values: on, off]

For more information, try '--help'.
END
done
for line in 'a b --hints' '--hints= a b'; do
    refused "$line" <<'END'
error: a value is required for '--hints <on|off>' but none was supplied
  [possible values: on, off]

For more information, try '--help'.
END
done
refused '--explain=wrong a b' <<'END'
error: invalid value 'wrong' for '--explain [<FORM>]'
  [possible values: text, json, sarif]

For more information, try '--help'.
END
refused '--explain= a b' <<'END'
error: a value is required for '--explain [<FORM>]' but none was supplied
  [possible values: text, json, sarif]

For more information, try '--help'.
END
# (the form stands behind a `=`: another word is a file)
refused '--explain json a b' <<'END'
error: unexpected argument 'b' found

Usage: smtcheck [OPTIONS] <SCRIPT> <ANSWERS>

For more information, try '--help'.
END
refused '--solver yices a b' <<'END'
error: invalid value 'yices' for '--solver <NAME>'
  [possible values: z3, cvc5, cvc4, bitwuzla, boolector, smtinterpol]

For more information, try '--help'.
END
refused '--solver Z3 a b' <<'END'
error: invalid value 'Z3' for '--solver <NAME>'
  [possible values: z3, cvc5, cvc4, bitwuzla, boolector, smtinterpol]

For more information, try '--help'.
END
for line in 'a b --solver' '--solver= a b'; do
    refused "$line" <<'END'
error: a value is required for '--solver <NAME>' but none was supplied
  [possible values: z3, cvc5, cvc4, bitwuzla, boolector, smtinterpol]

For more information, try '--help'.
END
done
for line in 'a b --print-success' '--print-success= a b'; do
    refused "$line" <<'END'
error: a value is required for '--print-success <on|off>' but none was supplied
  [possible values: on, off]

For more information, try '--help'.
END
done
refused '--steps 18446744073709551615 a b' <<'END'
error: invalid value '18446744073709551615' for '--steps <N>': 18446744073709551615 is not in 0..=18446744073709551614

For more information, try '--help'.
END
refused '--steps 18446744073709551616 a b' <<'END'
error: invalid value '18446744073709551616' for '--steps <N>': number too large to fit in target type

For more information, try '--help'.
END
for value in x 1e6 10_000 5. +; do
    refused "--steps $value a b" <<END
error: invalid value '$value' for '--steps <N>': invalid digit found in string

For more information, try '--help'.
END
done
refused '--steps -1 a b' <<'END'
error: unexpected argument '-1' found

  tip: to pass '-1' as a value, use '-- -1'

Usage: smtcheck [OPTIONS] <SCRIPT> <ANSWERS>

For more information, try '--help'.
END
refused '--steps=-1 a b' <<'END'
error: invalid value '-1' for '--steps <N>': invalid digit found in string

For more information, try '--help'.
END
for line in 'a b --steps' '--steps --print-success on a b'; do
    refused "$line" <<'END'
error: a value is required for '--steps <N>' but none was supplied

For more information, try '--help'.
END
done
refused '--steps= a b' <<'END'
error: invalid value '' for '--steps <N>': cannot parse integer from empty string

For more information, try '--help'.
END
status=0
"$program" --steps '' a b >output 2>second || status=$?
[ "$status" = 5 ] && [ ! -s output ] && cmp -s second errors || fail "--steps '' a b"
# twice OPTION FORM VALUE OTHER: the option is given twice, with these values.
twice() {
    refused "$1 $3 $1 $4 a b" <<END
error: the argument '$1 <$2>' cannot be used multiple times

Usage: smtcheck [OPTIONS] <SCRIPT> <ANSWERS>

For more information, try '--help'.
END
}
twice --steps N 5 5
twice --print-success 'on|off' on on
twice --print-success 'on|off' on off
twice --profile 'base|wide' wide base
twice --profile 'base|wide' wide wide
twice --solver NAME z3 z3
twice --solver NAME z3 cvc5
twice --hints 'on|off' off on
for line in '--explain --explain' '--explain --explain=json' '--explain=json --explain' '--explain=json --explain=json'; do
    run "$line a b"
    [ "$status" = 5 ] && [ ! -s output ] && grep -qx "error: the argument '--explain.*<FORM>]' cannot be used multiple times" errors || fail "$line"
done

# helped LINE: the line asks for help, which is printed with status 5.
cat >wanted <<'END'
Checks the models that an SMT solver printed.

SCRIPT is the SMT-LIB 2.6 script that the solver read, and ANSWERS the text that it printed for it. Each answer is paired with its command, and every `sat` is checked by evaluating the printed model in each assertion that was in force. One of the two may be `-`, which is standard input.

Usage: smtcheck [OPTIONS] <SCRIPT> <ANSWERS>

Arguments:
  <SCRIPT>
          the script that the solver read

  <ANSWERS>
          what the solver printed

Options:
      --solver <NAME>
          Which solver printed ANSWERS: z3, cvc5, cvc4, bitwuzla, boolector or smtinterpol. Where --profile is not given, it is wide; where --print-success is not given, it is what the solver does by default: on for smtinterpol, and off for the others.

      --print-success <on|off>
          Whether the solver prints `success`, from the start, for each command that has no answer of its own.
          
          off: for z3, cvc5, cvc4 and bitwuzla, which print it only once the script says (set-option :print-success true)
          on:  for SMTInterpol and others that keep to the default of SMT-LIB, and for a run that was told to print it, such as `z3 smtlib2_compliant=true` or `cvc5 --print-success`
          
          A script's own (set-option :print-success ..) is followed from there on.
          
          [default: on]

      --profile <base|wide>
          Which language is taken; docs/LANGUAGE.md has both.
          
          base: scripts over truth values, integers and bit vectors, in the forms of SMT-LIB 2.6
          wide: the same, reals, operators of SMT-LIB 2.7 on bit vectors, and forms that real scripts and models have besides: (push) and (pop) without a numeral, define-const, declare-sort, terms as assumptions, the names of more logics, `unsupported` as answer to a set-logic of another name, and items of a model that repeat a label or a definition of the script or tell of declared sorts, as z3 prints them
          
          [default: base]

      --steps <N>
          How many steps the evaluation of a model may take, from 0 to 18446744073709551614. All assertions in force and all assumptions count together, and a model that costs more is told as `too long`, and is not evaluated.
          
          A step is one term that is evaluated. Its parts count as well, the body of a name counts at each use of the name, and each annotation `!` is one step more.
          
          The cost grows with the text, so the models of a large script may need more. About 10,000,000 steps are enough for some 25 to 70 MB of usual script.
          
          [default: 10000000]

      --explain[=<FORM>]
          Say of each check that is not confirmed, and of the fault, where it stands in the files, by line and column, and why: of an assertion or an assumption that is false the part that makes it so, with the values of what stands in it.
          
          As text, which --explain alone means too, it is for people and follows the report. As json (an object for each line of the report) or sarif (a document for code review) it stands in place of the report. The status stays the same. Both texts are kept in memory until then.

      --hints <on|off>
          Whether standard error gets a hint at a usual mistake, as at exchanged files or a missing option. Without this option there are hints where standard error is a terminal, and with --explain.

      --strict
          End with status 2 in place of 0 where a check was answered otherwise than by a confirmed `sat`, or where there is no check. The report stays the same.

  -h, --help
          Print help (see a summary with '-h')

  -V, --version
          Print version

The last line of the report is the verdict, and the exit status says the same:
  0  valid: every `sat` is confirmed by the models printed for it
  1  invalid: some model makes an assertion or an assumption false
  2  not decided: no model refutes a `sat`, and some `sat` is not confirmed
  3  refused: the script or the answers have a fault
  4  a file could not be opened, read or written, or memory was refused: standard error says which
  5  the command line was refused, or help was asked for

A fault is named by a letter and a number: the manual page and docs/LANGUAGE.md say what each means, its likely cause, and what to do. Seen most often is `fault P2 at command 1, answer 1`: the solver prints no `success`, and --solver or --print-success off is missing.
END
run --help
[ "$status" = 5 ] && [ ! -s errors ] && cmp -s wanted output || fail --help
run 'a b -h'
[ "$status" = 5 ] && [ ! -s errors ] && grep -q '^Usage: smtcheck' output || fail 'a b -h'
grep -qxF '      --profile <base|wide>     which language is taken [default: base]' output || fail 'a b -h'
grep -qxF '      --print-success <on|off>  whether the solver printed `success` from the start [default: on]' output || fail 'a b -h'
grep -qxF '      --steps <N>               how many steps the evaluation of a model may take [default: 10000000]' output || fail 'a b -h'
grep -qxF '      --explain[=<FORM>]        say where what is not confirmed stands, and why' output || fail 'a b -h'

# The version is that of CHANGELOG.md, and the kit that of the README, whose logic is the one that is here.
version=$(sed -n 's/^## //p' "$top/CHANGELOG.md" | head -n 1)
kit=$(sed -n 's/.*`\(rattle-kit-[^ ]* logic [0-9a-f]*\)`.*/\1/p' "$top/README.md")
here=$(rt version)
[ "${kit#* }" = "${here#* }" ] || fail "the README names another logic than $here"
for line in --version -V 'a b -V'; do
    run "$line"
    [ "$status" = 0 ] && [ ! -s errors ] && [ "$(cat output)" = "smtcheck $version ($kit)" ] || fail "$line"
done
