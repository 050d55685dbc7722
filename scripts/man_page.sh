#!/bin/sh
# man_page.sh PROGRAM LANGUAGE: prints the manual page, which is made of what the program says to `--help` and `--version`, and of the
# tables of docs/LANGUAGE.md on the profile `wide`, on the report's lines, on faults and on the lines of standard error.
set -e
version=$("$1" --version)
version=${version#smtcheck }
help=$("$1" --help) || [ $? = 5 ]
[ -n "$help" ] || { echo "man_page.sh: $1 --help printed nothing" >&2; exit 1; }

# rows HEAD FILE: the rows of the table with this head, written for a manual page.
rows() {
    awk -v head="$1" '$0 == head { on = 1; next } /^$/ { on = 0 } on && !/^[|]---/' "$2" |
        sed 's/^| //; s/ |$//; s/\\|/!bar!/g; s/\*\*//g; s/\[\([A-Z]*\.md\)\]([^)]*)/\1/g; s/\\/\\e/g; s/-/\\-/g; s/`/\\(ga/g'
}

# The parts of the help: what stands before the usage, the usage, arguments, options, and the text behind them.
printf '%s\n' "$help" | awk -v version="${version%% *}" '
function plain(text) {
    gsub(/\\/, "\\e", text)
    gsub(/-/, "\\-", text)
    gsub(/`/, "\\(ga", text)
    gsub(/\047/, "\\(aq", text)
    if (text ~ /^\./) text = "\\&" text
    return text
}
function trimmed(text) { sub(/^ +/, "", text); sub(/ +$/, "", text); return text }
function say(text) { if (gap) print ".sp"; gap = 0; print plain(trimmed(text)) }
function head(text) { print ".SH " text; gap = 0 }
function describe() { if (!done) { head("DESCRIPTION"); print about } done = 1 }
NR == 1 {
    name = $0
    sub(/\.$/, "", name)
    print ".TH SMTCHECK 1 \"\" \"smtcheck " version "\" \"User commands\""
    head("NAME")
    print plain("smtcheck - " tolower(substr(name, 1, 1)) substr(name, 2))
    part = "about"
    next
}
/^ *$/ { gap = (part != "about" || described); next }
/^Usage: / { usage = substr($0, 8); head("SYNOPSIS"); print ".B " plain(usage); part = "usage"; next }
/^Arguments:$/ { describe(); head("ARGUMENTS"); part = "list"; next }
/^Options:$/ { describe(); head("OPTIONS"); part = "list"; next }
part == "about" { about = about (described ? "\n.sp\n" : "") plain($0); described = 1; next }
part == "list" && /^ +[-<]/ && !/^          / { print ".TP"; print ".B " plain(trimmed($0)); gap = 0; next }
part == "list" && /^          / {
    if ($0 ~ /^ +[a-z]+: /) { if (gap) print ".sp"; else print ".br"; gap = 0 }
    say($0)
    next
}
/^  [0-9]+  / { print ".TP"; print ".B " $1; say(substr($0, index($0, $2))); next }
/^[^ ]/ {
    if (part != "rest") { head("REPORT AND EXIT STATUS"); part = "rest" }
    if (gap) print ".PP"
    gap = 0
    say($0)
    next
}
{ say($0) }
END { describe() }
'
cat <<'END'
.SH EXAMPLES
For what z3 prints unless it is told otherwise:
.sp
.nf
z3 script.smt2 > answers.txt
smtcheck \-\-solver z3 script.smt2 answers.txt
.fi
.SH PROFILES
What \-\-profile wide takes beside the language of \-\-profile base, and what is said of it there. LANGUAGE.md has the rest.
END
rows '| where | with `--profile base` | with `--profile wide` |' "$2" | awk '{
    split($0, cells, / [|] /)
    gsub(/\\\(ga/, "", cells[1])
    print ".TP\n.B " cells[1]
    print "base: " cells[2] ".\n.br\nwide: " cells[3] "."
}' | sed 's/!bar!/|/g'
cat <<'END'
.SH REPORT LINES
One line for each check, then the first fault if there is one, then the verdict. Commands, answers, checks, items and assumptions are
counted from 1, and bytes from 0.
END
rows '| line | meaning |' "$2" | awk '{
    split($0, cells, / [|] /)
    gsub(/\\\(ga/, "", cells[1])
    print ".TP\n.B " cells[1] "\n" cells[2] "."
}' | sed 's/!bar!/|/g'
cat <<'END'
.PP
The verdict has four counts of checks:
.TP
.B confirmed
answered sat, with a model or more, each of which makes every assertion in force and every assumption true.
.TP
.B refuted
answered sat, with a model that makes one of them false.
.TP
.B undecided
answered sat, and neither: no model was printed, or it has a fault, lacks a symbol, is too long or leaves an assertion open.
.TP
.B unchecked
answered otherwise than sat.
.SH FAULTS
For each fault: what it means, the likely cause, and what to do.
END
rows '| fault | meaning | likely cause | what to do |' "$2" | awk '{
    split($0, cells, / [|] /)
    gsub(/\\\(ga/, "", cells[1])
    print ".TP\n.B " cells[1]
    print cells[2] ".\n.br\nLikely: " cells[3] ".\n.br\nTo do: " cells[4] "."
}' | sed 's/!bar!/|/g'
cat <<'END'
.SH DIAGNOSTICS
A run without a report ends with status 4, and one line on standard error says why.
END
rows '| line on standard error | meaning | what to do |' "$2" | awk '{
    split($0, cells, / [|] /)
    gsub(/\\\(ga/, "", cells[1])
    print ".TP\n.B " cells[1]
    print cells[2] ".\n.br\nTo do: " cells[3] "."
}' | sed 's/!bar!/|/g'
cat <<'END'
.SH SEE ALSO
LANGUAGE.md, SOLVERS.md, COLLECTIONS.md and EMBEDDING.md, which are installed with this page, in share/doc/smtcheck.
END
