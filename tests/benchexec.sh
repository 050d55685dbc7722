#!/bin/sh
# Tests collections/benchexec, over the BenchExec that is installed: the command line of a run, and what a run has found. Skips with a word
# where benchexec is not installed. SMTCHECK names the program; without it, that which `rt ci` has built. Says nothing else where all is well.
set -e
cd "$(dirname "$0")/.."
if ! python3 -c 'import benchexec.tools.template' 2>/dev/null; then
    echo 'benchexec: skipped, since BenchExec is not installed'
    exit 0
fi
work=$(mktemp -d)
trap 'rm -rf "$work"' EXIT
mkdir "$work/organiser"
touch "$work/organiser/__init__.py"
cp collections/benchexec/smtcheck.py "$work/organiser"
SMTCHECK=${SMTCHECK:-$PWD/crates/smtcheck/out/smtcheck} PYTHONDONTWRITEBYTECODE=1 PYTHONPATH=$work python3 - "$PWD/tests/collection" "$PWD/collections/benchexec/smtcheck.xml" <<'PYEOF'
import os, subprocess, sys, types
import xml.etree.ElementTree as tree
import organiser.smtcheck as info
tool, program, folder = info.Tool(), os.environ["SMTCHECK"], sys.argv[1]
assert tool.name() == "smtcheck"
assert tool.version(program).split()[0].count(".") == 2, tool.version(program)
task = types.SimpleNamespace(single_input_file="a/b.smt2")
for options, wanted in (
    ([], ["p", "--print-success", "off", "a/b.smt2", "a/b.txt"]),
    (["--answers", "c", "--steps", "5"], ["p", "--steps", "5", "--print-success", "off", "a/b.smt2", "c"]),
    (["--print-success=on", "--answers=c"], ["p", "--print-success=on", "a/b.smt2", "c"]),
    (["--solver", "z3"], ["p", "--solver", "z3", "a/b.smt2", "a/b.txt"]),
):
    assert tool.cmdline("p", options, task, None) == wanted, options
wanted = {"levels/bmc": "true", "plain/unsat": "done", "plain/colours, one changed": "false", "plain/labels": "unknown", "plain/reals": "ERROR (fault C5)", "plain/none": "ERROR (status 4)"}
for name, found in wanted.items():
    task.single_input_file = os.path.join(folder, name + ".smt2")
    done = subprocess.run(tool.cmdline(program, [], task, None), stdout=subprocess.PIPE, stderr=subprocess.DEVNULL)
    run = types.SimpleNamespace(exit_code=types.SimpleNamespace(value=done.returncode), output=done.stdout.decode().splitlines(True))
    assert tool.determine_result(run) == found, (name, tool.determine_result(run))
assert info.result_of(0, []) == "ERROR (no report)"
assert tree.parse(sys.argv[2]).getroot().get("tool") == "organiser.smtcheck"
PYEOF
