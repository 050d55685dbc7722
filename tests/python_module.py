#!/usr/bin/env python3
"""Tests bindings/python/smtcheck.py over the shared library that SMTCHECK_LIBRARY names: python_module.py. Says nothing where all is well."""
import ctypes
import importlib.util
import json
import os
import pathlib
import shlex
import subprocess
import sys
import tempfile
import unittest

TOP = pathlib.Path(__file__).resolve().parent.parent
BINDING = TOP / "bindings" / "python"
sys.path.insert(0, str(BINDING))
import smtcheck  # noqa: E402

SCRIPT = "(declare-const x Int)(assert (< 5 x))(check-sat)(get-model)"
RIGHT, WRONG = "sat ((define-fun x () Int 7))", "sat ((define-fun x () Int 3))"


def run(*words: str, output: object = subprocess.PIPE, given: str = "", **variables: str) -> "subprocess.CompletedProcess[bytes]":
    """A run of `python -m smtcheck`."""
    environment = {**os.environ, **variables}
    return subprocess.run([sys.executable, "-m", "smtcheck", *words], stdout=output, stderr=subprocess.PIPE, cwd=BINDING, env=environment, input=given.encode())  # type: ignore[call-overload, no-any-return]


def examples(language: str) -> "list[str]":
    """The blocks of a language that EMBEDDING has."""
    page = (TOP / "docs" / "EMBEDDING.md").read_text()
    return [block.split("\n```", 1)[0] for block in page.split(f"\n```{language}\n")[1:]]


class Files(unittest.TestCase):
    """Tests with two files."""

    def setUp(self) -> None:
        folder = tempfile.TemporaryDirectory()
        self.addCleanup(folder.cleanup)
        self.folder = pathlib.Path(folder.name)
        self.files = [str(self.folder / name) for name in ("script.smt2", "answers.txt")]
        for file, text in zip(self.files, (SCRIPT, WRONG)):
            pathlib.Path(file).write_text(text)


class Examples(Files):
    """The examples of EMBEDDING for tests, over a solver that prints what is kept beside each script."""

    def setUp(self) -> None:
        super().setUp()
        for folder in ("bin", "scripts"):
            (self.folder / folder).mkdir()
        for name, text in (("z3", 'cat "${1%.smt2}.txt"'), ("smtcheck", f'exec "{sys.executable}" "{BINDING}/smtcheck.py" "$@"')):
            (self.folder / "bin" / name).write_text(f"#!/bin/sh\n{text}\n")
            (self.folder / "bin" / name).chmod(0o755)
        self.scripts = [self.folder / "scripts" / f"{name}.smt2" for name in ("one", "two words")]
        self.write(RIGHT, RIGHT)

    def write(self, *answers: str) -> None:
        for script, text in zip(self.scripts, answers):
            script.write_text(SCRIPT)
            script.with_suffix(".txt").write_text(text)

    def status(self, words: "list[str]") -> int:
        path = f"{self.folder / 'bin'}:{os.environ['PATH']}"
        variables = {**os.environ, "PATH": path, "PYTHONPATH": str(BINDING)}
        return subprocess.run(words, cwd=self.folder, env=variables, stdout=subprocess.DEVNULL).returncode

    def test_pre_commit(self) -> None:
        (entry,) = [line.split("entry: ", 1)[1] for block in examples("yaml") for line in block.split("\n") if "entry: " in line]
        line = [*shlex.split(entry), *map(str, self.scripts)]
        self.assertEqual(self.status(line), 0)
        for answers in ((WRONG, RIGHT), (RIGHT, WRONG)):
            self.write(*answers)
            self.assertEqual(self.status(line), 1, answers)

    @unittest.skipUnless(importlib.util.find_spec("pytest"), "pytest is not installed")
    def test_pytest(self) -> None:
        (self.folder / "test_models.py").write_text(examples("python")[0])
        line = [sys.executable, "-m", "pytest", "-q", "-p", "no:cacheprovider", "test_models.py"]
        self.assertEqual(self.status(line), 0)
        self.write(RIGHT, WRONG)
        self.assertEqual(self.status(line), 1)


class Main(Files):
    """The command line: 0 to 3 is a verdict, and stands behind a whole report alone."""

    def told(self, status: int, words: str, *line: str, **others: object) -> None:
        done = run(*line, **others)  # type: ignore[arg-type]
        self.assertEqual((done.returncode, words in done.stderr.decode()), (status, True), done.stderr)

    def test_a_verdict(self) -> None:
        self.assertEqual(run("--print-success", "off", *self.files).returncode, 1)
        self.assertEqual(run("--print-success=on", *self.files).returncode, 3)

    def test_a_library_that_is_missing(self) -> None:
        self.told(4, "SMTCHECK_LIBRARY", *self.files, SMTCHECK_LIBRARY="/nowhere/libsmtcheck.so")
        self.told(4, "SMTCHECK_LIBRARY", "--version", SMTCHECK_LIBRARY="/nowhere/libsmtcheck.so")

    def test_a_library_that_is_another(self) -> None:
        self.told(4, "SMTCHECK_LIBRARY", *self.files, SMTCHECK_LIBRARY=self.files[0])

    def test_no_room_for_the_output(self) -> None:
        with open("/dev/full", "wb") as full:
            self.told(4, "smtcheck: output", *self.files, output=full)
            self.told(4, "smtcheck: output", "--version", output=full)

    def test_a_pipe_that_is_closed(self) -> None:
        reader, writer = os.pipe()
        os.close(reader)
        with os.fdopen(writer, "wb") as closed:
            self.told(4, "smtcheck: output", *self.files, output=closed)

    def test_files_that_are_missing(self) -> None:
        self.told(4, "smtcheck: script", str(self.folder), self.files[1])
        self.told(4, "smtcheck: answers", self.files[0], "none")
        self.assertEqual(run(self.files[0], "none").stderr, b"smtcheck: answers\nnone: No such file or directory\n")

    def test_standard_input(self) -> None:
        for words, text in (((self.files[0], "-"), RIGHT), (("-", self.files[1]), SCRIPT)):
            pathlib.Path(self.files[1]).write_text(RIGHT)
            done = run("--print-success=off", *words, given=text)
            self.assertEqual((done.returncode, done.stdout), (0, run("--print-success=off", *self.files).stdout), words)
        done = run("-", "-", given=SCRIPT)
        self.assertEqual((done.returncode, done.stderr), (4, b"smtcheck: answers\nstandard input: standard input is the script\n"))

    def test_words_that_are_refused(self) -> None:
        for line in ([], ["--help"], ["--steps", "5", "--steps", "5", *self.files], ["--steps=x", *self.files], ["--print-succ", "off", *self.files]):
            self.assertEqual(run(*line).returncode, 5, line)
        self.told(5, "given twice", "--print-success", "on", "--print-success", "on", *self.files)
        self.assertEqual(run("--profile", "Wide", *self.files).returncode, 5)

    def test_the_solver(self) -> None:
        for file, text in zip(self.files, ("(push)", "")):
            pathlib.Path(file).write_text(text)
        for solver in smtcheck.SOLVERS:
            is_on = solver == "smtinterpol"
            for words, status in (((), 3 if is_on else 0), (("--print-success=off",), 0), (("--print-success=on",), 3), (("--profile=base",), 3)):
                for line in ((*words, "--solver", solver), (f"--solver={solver}", *words, "--hints", "on")):
                    self.assertEqual(run(*line, *self.files).returncode, status, line)
        self.told(5, "given twice", "--solver", "z3", "--solver", "z3", *self.files)
        self.assertEqual(run("--solver", "yices", *self.files).returncode, 5)
        self.assertIn(b"`-`", run("--help").stdout)

    def test_the_profile(self) -> None:
        for file, text in zip(self.files, ("(push)", "")):
            pathlib.Path(file).write_text(text)
        for words, status in (((), 3), (("--profile=base",), 3), (("--profile", "wide"), 0)):
            self.assertEqual(run("--print-success=off", *words, *self.files).returncode, status, words)
        for profile, verdict in (("base", "refused"), ("wide", "valid")):
            self.assertEqual(smtcheck.check_files(*self.files, print_success=False, profile=profile).verdict, verdict)
            self.assertEqual(smtcheck.explain("(push)", "", False, profile=profile).verdict, verdict)
            with smtcheck.Session(print_success=False, profile=profile) as session:
                session.script("(push)")
                session.end_script()
                session.end_answers()
                self.assertEqual(session.verdict, verdict)
        with self.assertRaises(ValueError):
            smtcheck.check(SCRIPT, RIGHT, profile="Wide")

    def test_the_version(self) -> None:
        for word in ("-V", "--version"):
            done = run(word)
            self.assertEqual((done.stdout.decode(), done.stderr), (f"smtcheck {smtcheck.version()}\n", b""))
            self.assertEqual(done.returncode, 0)

    def test_an_explanation(self) -> None:
        done = run("--print-success=off", "--explain", *self.files)
        report, told = (made(SCRIPT, WRONG, print_success=False) for made in (smtcheck.check, smtcheck.explain))
        self.assertEqual((done.returncode, done.stdout.decode()), (1, f"{report}{told}"))
        self.assertIn("\nscript:1:22: claim, command 2: (assert (< 5 x))\n", str(told))
        self.assertEqual(run("--print-success=off", "--explain=text", *self.files).stdout, done.stdout)
        self.assertEqual(run("--print-success=off", *self.files, "--explain").stdout, done.stdout)

    def test_an_explanation_in_json(self) -> None:
        """An object a line, for each check, the fault and the verdict, and no report."""
        for answers, status, wanted in (
            (WRONG, 1, [(1, "refuted", 4), (None, "invalid", 0)]),
            (RIGHT, 0, [(1, "confirmed", 0), (None, "valid", 0)]),
            ("sat", 3, [(1, "no-model", 2), (None, "missing-answer", 3), (None, "refused", 0)]),
        ):
            pathlib.Path(self.files[1]).write_text(answers)
            done = run("--print-success=off", "--explain=json", *self.files)
            told = [json.loads(line) for line in done.stdout.decode().splitlines()]
            self.assertEqual((done.returncode, done.stderr), (status, b""))
            self.assertEqual([(each["check"], each["outcome"], len(each["remarks"])) for each in told], wanted)
        self.assertEqual(run("--strict", "--print-success=off", "--explain=json", "/dev/null", "/dev/null").returncode, 2)

    def test_an_explanation_in_sarif(self) -> None:
        """One document, whose results say what the text does."""
        done = run("--print-success=off", "--explain=sarif", *self.files)
        self.assertEqual((done.returncode, done.stderr), (1, b""))
        document = json.loads(done.stdout)
        (one,) = document["runs"]
        (result,) = one["results"]
        self.assertEqual((document["version"], one["tool"]["driver"]["name"]), ("2.1.0", "smtcheck"))
        self.assertEqual((result["ruleId"], result["level"]), ("refuted", "error"))
        self.assertEqual(result["message"]["text"], str(smtcheck.explain(SCRIPT, WRONG, print_success=False)))
        (place,) = [each["physicalLocation"] for each in result["locations"]]
        self.assertEqual(place, {"artifactLocation": {"uri": "script"}, "region": {"startLine": 1, "startColumn": 22}})
        pathlib.Path(self.files[1]).write_text(RIGHT)
        done = run("--print-success=off", "--explain=sarif", *self.files)
        self.assertEqual((done.returncode, json.loads(done.stdout)["runs"][0]["results"]), (0, []))

    def test_forms_that_are_refused(self) -> None:
        """A form stands behind `=`: no next word is taken for one, nor a file that is named like the option."""
        for line in (["--explain=yaml"], ["--explain="], ["--explain", "json"], ["--explain", "--explain"], ["--explain=json", "--explain"]):
            self.assertEqual(run(*line, *self.files).returncode, 5, line)
        for word in ("--explain", "--explain=json"):
            done = run("--print-success=off", "--", self.files[0], word)
            self.assertEqual((done.returncode, done.stderr), (4, f"smtcheck: answers\n{word}: No such file or directory\n".encode()))
        with open("/dev/full", "wb") as full:
            self.told(4, "smtcheck: output", "--explain=json", *self.files, output=full)

    def test_a_strict_status(self) -> None:
        for answers, status in ((RIGHT, 0), (WRONG, 1), ("unsat", 3), ("unsat ()", 2)):
            pathlib.Path(self.files[1]).write_text(answers)
            self.assertEqual(run("--print-success=off", "--strict", *self.files).returncode, status, answers)


class Arguments(Files):
    """Arguments of wrong types are named."""

    def test_types(self) -> None:
        for name, words in {
            "script is a PosixPath, and no str or bytes: check_files takes paths": (self.folder, RIGHT),
            "script is a int, and no str or bytes": (5, RIGHT),
            "answers is a NoneType, and no str or bytes": (SCRIPT, None),
            "answers is a list, and no str or bytes": (SCRIPT, [1]),
            "print_success is 'off', and not True or False": (SCRIPT, RIGHT, "off"),
            "print_success is 0, and not True or False": (SCRIPT, RIGHT, 0),
            "steps is True, and no int": (SCRIPT, RIGHT, False, True),
            "steps is 1.5, and no int": (SCRIPT, RIGHT, False, 1.5),
            "profile is True, and no str": (SCRIPT, RIGHT, False, 5, True),
        }.items():
            with self.assertRaises(TypeError) as raised:
                smtcheck.check(*words)  # type: ignore[arg-type]
            self.assertEqual(str(raised.exception), name)
        with self.assertRaises(ValueError):
            smtcheck.check(SCRIPT, RIGHT, False, 2**64 - 1)

    def test_texts(self) -> None:
        for form in (str, str.encode, lambda text: bytearray(text.encode()), lambda text: memoryview(text.encode())):
            self.assertEqual(smtcheck.check(form(SCRIPT), form(RIGHT), print_success=False).verdict, "valid")

    def test_files(self) -> None:
        wanted = smtcheck.check(SCRIPT, WRONG, print_success=False)
        self.assertEqual(smtcheck.check_files(*self.files, print_success=False), wanted)
        self.assertEqual(smtcheck.check_files(*map(pathlib.Path, self.files), print_success=False), wanted)
        with self.assertRaises(TypeError):
            smtcheck.check_files(0, self.files[1])  # type: ignore[arg-type]
        with self.assertRaises(FileNotFoundError):
            smtcheck.check_files("nowhere.smt2", self.files[1])


class Reports(unittest.TestCase):
    """What a report and the module have."""

    def test_text(self) -> None:
        report = smtcheck.check(SCRIPT, WRONG, print_success=False)
        self.assertEqual(str(report), report.text)
        self.assertTrue(str(report).endswith("verdict: invalid, confirmed 0, refuted 1, undecided 0, unchecked 0\n"))

    def test_truth(self) -> None:
        """A report is true where it is valid, and raises where it is not."""
        right, wrong = (smtcheck.check(SCRIPT, answers, print_success=False) for answers in (RIGHT, WRONG))
        self.assertTrue(right)
        self.assertFalse(wrong)
        self.assertIs(right.raise_for_verdict(), right)
        with self.assertRaises(smtcheck.VerdictError) as raised:
            wrong.raise_for_verdict()
        self.assertIs(raised.exception.report, wrong)
        self.assertIn("refuted by the assertion of command 2", str(raised.exception))

    def test_json_of_an_explanation(self) -> None:
        """Each remark has its names."""
        told = json.loads(smtcheck.explain(SCRIPT, WRONG, print_success=False).to_json())
        self.assertEqual(told["verdict"], "invalid")
        (each,) = told["told"]
        self.assertEqual((each["check"], each["outcome"], each["left_out"]), (1, "refuted", 0))
        self.assertEqual(each["remarks"][1]["spot"], {"text": "script", "line": 1, "column": 22})
        self.assertEqual(each["remarks"][2], {
            "kind": "false", "number": None, "spot": {"text": "script", "line": 1, "column": 22}, "command": None, "within": None,
            "text": "(< 5 x)", "reason": None, "values": [{"term": "x", "given": None, "value": "3"}],
            "items": [{"name": "x", "spot": {"text": "answers", "line": 1, "column": 6}}],
        })

    def test_json(self) -> None:
        report = smtcheck.check(SCRIPT + "(check-sat)(frob)", WRONG + "unsat", print_success=False)
        told = json.loads(report.to_json())
        self.assertEqual([told[name] for name in ("verdict", "status", "confirmed", "refuted", "undecided", "unchecked")], ["refused", 3, 0, 1, 0, 1])
        self.assertEqual(told["lines"], [
            {"check": 1, "command": 3, "outcome": "refuted", "place": {"model": 4, "assertion": 2}},
            {"check": 2, "command": 5, "outcome": "unsat", "place": {}},
            {"check": None, "command": 6, "outcome": "fault C1", "place": {}},
        ])
        self.assertNotIn("\n", report.to_json())

    def test_names(self) -> None:
        self.assertEqual(smtcheck.__version__, smtcheck.version().split()[0])
        self.assertIn(f'version = "{smtcheck.__version__}"', (BINDING / "pyproject.toml").read_text())
        for name in smtcheck.__all__:
            self.assertTrue(hasattr(smtcheck, name), name)
        self.assertIn("Session", smtcheck.__all__)
        self.assertNotIn("re", smtcheck.__all__)

    def test_a_library_that_is_missing(self) -> None:
        code = "import smtcheck\ntry:\n smtcheck.check('', '')\nexcept smtcheck.LibraryError as e: print('SMTCHECK_LIBRARY names it' in str(e))"
        done = subprocess.run([sys.executable, "-c", code], stdout=subprocess.PIPE, cwd=BINDING, env={**os.environ, "SMTCHECK_LIBRARY": "/nowhere"})
        self.assertEqual(done.stdout, b"True\n")


class Explanations(unittest.TestCase):
    """Where a report's lines stand, and why."""

    def test_a_refuted_claim(self) -> None:
        script = """(declare-const start Int)
(define-fun ends ((from Int) (long Int)) Int (+ from long))
(assert (and (< 0 start)
  (<= (ends start 2) 4)))
(check-sat)(get-model)"""
        answers = "sat (\n  (define-fun start () Int 3))"
        (told,) = smtcheck.explain(script, answers, print_success=False).told
        self.assertEqual((told.check, told.outcome, told.command, told.spot), (1, "refuted", 4, smtcheck.Spot("script", 5, 1)))
        check, claim, part, model = told.remarks
        self.assertEqual((check.kind, check.number, check.text), ("check", 1, "(check-sat)"))
        self.assertEqual(told.parts, (part,))
        self.assertEqual((part.kind, part.text, part.within, part.reason), ("false", "(<= (ends start 2) 4)", None, None))
        self.assertEqual(part.values, (smtcheck.Value("(ends start 2)", None, "5"), smtcheck.Value("start", None, "3")))
        self.assertEqual(part.items, (smtcheck.Item("start", smtcheck.Spot("answers", 2, 3)),))
        self.assertEqual((claim.kind, claim.spot, claim.command), ("claim", smtcheck.Spot("script", 3, 1), 3))
        self.assertEqual((model.kind, model.spot, model.text), ("model", smtcheck.Spot("answers", 1, 5), ""))
        self.assertEqual(told.left_out, 0)

    def test_a_part_in_a_definition(self) -> None:
        script = "(declare-const |a, b = c| Bool)\n(define-fun not-so ((x Bool)) Bool (= x false))\n(assert (not-so |a, b = c|))(check-sat)(get-model)"
        (told,) = smtcheck.explain(script, "sat ((define-fun |a, b = c| () Bool true))", print_success=False).told
        (part,) = told.parts
        self.assertEqual((part.text, part.within, part.spot), ("(= x false)", "not-so", smtcheck.Spot("script", 2, 1)))
        self.assertEqual(part.values, (smtcheck.Value("x", "|a, b = c|", "true"),))
        self.assertEqual(part.items, (smtcheck.Item("|a, b = c|", smtcheck.Spot("answers", 1, 6)),))

    def test_names_of_items(self) -> None:
        """Whatever stands between a name's bars, it makes no other item, and stays as it is."""
        for name in ("|f(x1, y2)|", "|a at answers:1:1, b|", "|a  b|", "|a\tb|", "|" + "long " * 40 + "|", "|\u00e9|", "x"):
            script = f"(declare-const {name} Bool)(assert (not {name}))(check-sat)(get-model)"
            answers = f"sat (\n ; (define-fun y\n  (define-fun ; here\n {name} () Bool true))"
            (told,) = smtcheck.explain(script, answers, print_success=False).told
            self.assertEqual([item for part in told.parts for item in part.items], [smtcheck.Item(name, smtcheck.Spot("answers", 3, 3))])

    def test_names_that_forge_nothing(self) -> None:
        """A name between bars may read like a value, an item, a line or JSON: it stays in the members that it is told in."""
        for name in ("|b = 5, c|", "|a at answers:1:1, b|", "|a\nanswers:1:1: item b|", '|a","value":"0"}],"items":[{"name":"b|', '|"|', "|} {|"):
            script = f"(declare-const {name} Int)(declare-const y Int)(assert (< {name} y))(check-sat)(get-model)"
            explanation = smtcheck.explain(script, f"sat ((define-fun {name} () Int 4)(define-fun y () Int 3))", print_success=False)
            (told,) = explanation.told
            (part,) = told.parts
            shown = name.replace("\n", "\\x0a")
            self.assertEqual([remark.kind for remark in told.remarks], ["check", "claim", "false", "model"])
            self.assertEqual(part.values, (smtcheck.Value(shown, None, "4"), smtcheck.Value("y", None, "3")))
            self.assertEqual([item.name for item in part.items], [name, "y"])
            places = [f"answers:{spot.line}:{spot.column}:" for spot in (*(item.spot for item in part.items), told.remarks[3].spot)]
            self.assertEqual([line.split(" ")[0] for line in explanation.text.splitlines() if line.startswith("answers")], places)

    def test_an_open_claim(self) -> None:
        script = "(declare-const x Int)(assert (< (div 1 x) 5))(check-sat)(get-model)"
        (told,) = smtcheck.explain(script, "sat ((define-fun x () Int 0))", print_success=False).told
        (part,) = told.parts
        self.assertEqual((told.outcome, part.kind, part.text, part.reason), ("not-decided", "open", "(div 1 x)", "a division by zero"))
        self.assertEqual(part.values, (smtcheck.Value("x", None, "0"),))

    def test_other_checks(self) -> None:
        """Each check that is not confirmed has its outcome, and its remark."""
        declared = "(declare-const x Int)(declare-const y Int)"
        ask = "(check-sat)(get-model)"
        for script, answers, outcome, kind, text in (
            ("(check-sat)", "unsat", "unchecked", "answer", "unsat"),
            ("(check-sat)", "sat", "no-model", "no model", "no (get-model) was answered by a model before the next check or change"),
            (declared + ask, "sat ((define-fun x () Int 1))", "lacks", "lacks", "(declare-const y Int)"),
            (declared + ask, "sat ((define-fun x () Int 1)(define-fun x () Int 1))", "item-fault", "item", "(define-fun x () Int 1)"),
        ):
            (told,) = smtcheck.explain(script, answers, print_success=False).told
            self.assertEqual((told.check, told.outcome, told.remarks[1].kind, told.remarks[1].text), (1, outcome, kind, text))
        (told,) = smtcheck.explain(SCRIPT, RIGHT, print_success=False, steps=0).told
        self.assertEqual((told.outcome, [remark.kind for remark in told.remarks]), ("too-long", ["check", "too long", "most of it", "model"]))

    def test_what_is_confirmed_is_not_told(self) -> None:
        """But whatever comes before it and behind it is."""
        told = smtcheck.explain("(check-sat)" + SCRIPT + "(check-sat)", "unknown " + RIGHT + "unsat", print_success=False)
        self.assertEqual([(each.check, each.outcome) for each in told.told], [(1, "unchecked"), (3, "unchecked")])
        self.assertEqual(told.verdict, "valid")

    def test_faults(self) -> None:
        told = smtcheck.explain("(assert (! true :named a))\n(assert (! true :named a))", "", print_success=False)
        self.assertEqual(told.verdict, "refused")
        (fault,) = told.told
        self.assertEqual((fault.check, fault.outcome, fault.command, fault.spot), (None, "command-fault", 2, smtcheck.Spot("script", 2, 1)))
        label, other = fault.remarks[2:]
        self.assertEqual((label.kind, label.spot, other.kind), ("label", smtcheck.Spot("script", 2, 24), "in use"))
        self.assertEqual(other.spot, smtcheck.Spot("script", 1, 1))
        (fault,) = smtcheck.explain("(assert\n (and p", "", print_success=False).told
        self.assertEqual((fault.outcome, fault.spot, fault.remarks[0].text), ("text-fault", smtcheck.Spot("script", 2, 8), "the text ends here"))
        self.assertEqual([each.spot for each in fault.remarks[1:]], [smtcheck.Spot("script", 2, 2), smtcheck.Spot("script", 1, 1)])
        (fault,) = smtcheck.explain("(assert (f q))", "", print_success=False).told
        self.assertEqual((fault.remarks[2].kind, fault.remarks[2].text), ("unknown", "q"))
        (fault,) = smtcheck.explain("(assert (= 1 true))", "", print_success=False).told
        self.assertEqual((fault.remarks[2].kind, fault.remarks[2].text), ("ill sorted", "(= 1 true)"))
        argument = fault.remarks[3]
        self.assertEqual((argument.kind, argument.number, argument.text), ("argument", 2, "true is of sort Bool, and Int is needed"))
        check, fault = smtcheck.explain("(check-sat)(frob)", "unsat", print_success=False).told
        self.assertEqual((check.remarks[1].kind, check.remarks[1].text), ("answer", "unsat"))
        for script, answers, outcome in (("(check-sat)", "", "missing"), ("(check-sat)", "()", "unexpected"), ("", "sat", "extra")):
            (fault,) = smtcheck.explain(script, answers, print_success=False).told
            self.assertEqual((fault.check, fault.outcome), (None, outcome + "-answer"))

    def test_all_is_confirmed(self) -> None:
        told = smtcheck.explain(SCRIPT, RIGHT, print_success=False)
        self.assertEqual((told.verdict, told.told, str(told)), ("valid", (), ""))

    def test_arguments(self) -> None:
        with self.assertRaises(TypeError):
            smtcheck.explain(SCRIPT, RIGHT, print_success="off")  # type: ignore[arg-type]
        with self.assertRaises(ValueError):
            smtcheck.explain(SCRIPT, RIGHT, steps=2**64 - 1)

    def test_a_form_that_there_is_not(self) -> None:
        """The library refuses it, and writes nothing."""
        library, options = smtcheck._library(), smtcheck._options_of(False, 10, "base")
        for form, steps, wanted in ((0, 10, 0), (1, 10, 0), (2, 10, 0), (3, 10, 5), (2**32 - 1, 10, 5), (0, 2**64 - 1, 5)):
            options.steps = steps
            buffer, length = ctypes.create_string_buffer(b"#" * 4096), ctypes.c_size_t(7)
            self.assertEqual(library.smtcheck_explain(b"", 0, b"", 0, options, form, buffer, 4096, length), wanted)
            if wanted == 5:
                self.assertEqual((buffer.raw[:4096], length.value), (b"#" * 4096, 7))

    def test_many_remarks(self) -> None:
        """Only the first 199 are told, and how many more there are."""
        script = "(declare-const x Int)" + "(assert (< 5 x))" * 300 + "(check-sat)(get-model)"
        explanation = smtcheck.explain(script, WRONG, print_success=False)
        (told,) = explanation.told
        self.assertEqual(len(told.remarks), 199)
        self.assertLessEqual(len(explanation.text.splitlines()), 200)

    def test_long_lines(self) -> None:
        """Each value is told whole, however many there are."""
        names = " ".join("name%d" % number for number in range(60))
        script = "".join("(declare-const name%d Int)" % number for number in range(60)) + f"(assert (< (+ {names}) 0))(check-sat)(get-model)"
        answers = "sat (" + "".join("(define-fun name%d () Int %d)" % (number, number) for number in range(60)) + ")"
        (told,) = smtcheck.explain(script, answers, print_success=False).told
        self.assertGreater(len(told.parts[0].values), 20)
        for value in told.parts[0].values:
            self.assertTrue(value.term.startswith("(") or value.term == "name" + value.value, value)


class Sessions(unittest.TestCase):
    """Sessions, whose lines come once they are decided."""

    def test_pieces(self) -> None:
        script, answers = SCRIPT + "(assert (< x 7))(check-sat)", RIGHT + " unsat\n"
        wanted = smtcheck.check(script, answers, print_success=False)
        with smtcheck.Session(print_success=False) as session:
            lines = []
            for byte in script.encode():
                session.script(bytes([byte]))
                lines += session.lines()
            self.assertEqual(lines, [])
            self.assertIsNone(session.verdict)
            session.answers(answers)
            lines += session.lines()
            self.assertEqual([line.outcome for line in lines], ["confirmed", "unsat"])
            session.end_answers()
            session.end_script()
            lines += session.lines()
            self.assertEqual((session.verdict, session.text, tuple(lines)), (wanted.verdict, wanted.text, wanted.lines))
        self.assertEqual(session.text, wanted.text)

    def test_many_lines(self) -> None:
        with smtcheck.Session(print_success=False) as session:
            session.script("(check-sat)" * 1000)
            session.answers("unsat " * 1000)
            self.assertEqual(len(list(session.lines())), 1000)

    def test_what_is_refused(self) -> None:
        session = smtcheck.Session()
        with self.assertRaises(TypeError) as raised:
            session.script(7)  # type: ignore[arg-type]
        self.assertEqual(str(raised.exception), "piece is a int, and no str or bytes")
        session.end_script()
        for call in (session.end_script, lambda: session.script("")):
            with self.assertRaises(ValueError):
                call()
        session.close()
        session.close()
        for call in (session.end_answers, lambda: session.answers(""), lambda: session.verdict, lambda: list(session.lines())):
            with self.assertRaises(ValueError):
                call()
        with self.assertRaises(TypeError):
            smtcheck.Session(print_success="off")  # type: ignore[arg-type]


class Wheel(unittest.TestCase):
    """`pip install`, without a network."""

    def test_pip(self) -> None:
        if subprocess.run([sys.executable, "-m", "pip", "--version"], stdout=subprocess.DEVNULL, stderr=subprocess.DEVNULL).returncode != 0:
            sys.stdout.write("python module: there is no pip, so that it installs is not tried\n")
            return
        with tempfile.TemporaryDirectory() as folder:
            source, target = os.path.join(folder, "python"), os.path.join(folder, "target")
            os.mkdir(source)
            for name in ("pyproject.toml", "smtcheck.py", "smtcheck_wheel.py"):
                pathlib.Path(source, name).write_bytes((BINDING / name).read_bytes())
            pathlib.Path(source, "libsmtcheck.so").write_bytes(pathlib.Path(os.environ["SMTCHECK_LIBRARY"]).read_bytes())
            words = [sys.executable, "-m", "pip", "install", "-q", "--no-index", "--disable-pip-version-check", "--root-user-action=ignore", "--target", target, source]
            done = subprocess.run(words, stdout=subprocess.PIPE, stderr=subprocess.STDOUT, stdin=subprocess.DEVNULL)
            self.assertEqual(done.returncode, 0, done.stdout.decode())
            environment = {name: value for name, value in os.environ.items() if name != "SMTCHECK_LIBRARY"}
            environment["PYTHONPATH"] = target
            code = "import smtcheck, importlib.metadata as m; print(smtcheck.version().split()[0] == m.version('smtcheck'), smtcheck.__file__)"
            told = subprocess.run([sys.executable, "-c", code], stdout=subprocess.PIPE, cwd=folder, env=environment).stdout.decode()
            self.assertEqual(told, f"True {target}/smtcheck/__init__.py\n")

    def test_a_fresh_environment(self) -> None:
        """The wheel of scripts/wheel.sh, which has the library: the module, its types, and both ways to run it."""
        with tempfile.TemporaryDirectory() as folder:
            environment = {name: value for name, value in os.environ.items() if name not in ("SMTCHECK_LIBRARY", "PYTHONPATH")}

            def run_in(*words: str) -> str:
                done = subprocess.run(words, stdout=subprocess.PIPE, stderr=subprocess.STDOUT, stdin=subprocess.DEVNULL, cwd=folder, env=environment)
                self.assertIn(done.returncode, (0, 1), done.stdout.decode())
                return done.stdout.decode()

            wheel = run_in(str(TOP / "scripts" / "wheel.sh"), folder).split("\n")[-2]
            self.assertRegex(wheel, r"/smtcheck-[0-9.]+-py3-none-manylinux_2_\d+_x86_64\.whl$")
            if subprocess.run([sys.executable, "-m", "venv", os.path.join(folder, "env")], stdout=subprocess.DEVNULL, stderr=subprocess.DEVNULL).returncode != 0:
                sys.stdout.write("python module: there is no venv, so the wheel is not tried\n")
                return
            programs = pathlib.Path(folder, "env", "bin")
            run_in(str(programs / "python"), "-m", "pip", "install", "-q", "--no-index", "--disable-pip-version-check", wheel)
            for name, text in (("s", SCRIPT), ("a", WRONG)):
                pathlib.Path(folder, name).write_text(text)
            for words in ([str(programs / "smtcheck")], [str(programs / "python"), "-m", "smtcheck"]):
                told = run_in(*words, "--print-success", "off", "s", "a")
                self.assertEqual(told.split("\n")[1], "verdict: invalid, confirmed 0, refuted 1, undecided 0, unchecked 0")
            code = "import smtcheck, pathlib; print((pathlib.Path(smtcheck.__file__).parent / 'py.typed').exists())"
            self.assertEqual(run_in(str(programs / "python"), "-c", code), "True\n")


if __name__ == "__main__":
    result = unittest.TextTestRunner(stream=open(os.devnull, "w"), verbosity=0).run(unittest.defaultTestLoader.loadTestsFromModule(sys.modules["__main__"]))
    for _, trace in result.failures + result.errors:
        sys.stdout.write(trace)
    sys.exit(not result.wasSuccessful())
