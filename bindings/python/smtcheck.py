"""Checks the models that an SMT solver printed, by the library of crates/smtcheck_c.

`check` takes the script that a solver read and the text that it printed, and gives the report on them:

>>> script = "(declare-const x Int)(assert (< 5 x))(check-sat)(get-model)"
>>> report = check(script, "sat ((define-fun x () Int 7))", print_success=False)
>>> report.verdict, report.confirmed
('valid', 1)
>>> report = check(script, "sat ((define-fun x () Int 3))", print_success=False)
>>> report.verdict
'invalid'
>>> report.lines[0]
Line(check=1, command=3, outcome='refuted', place=Place(model=4, assertion=2))
>>> print(report.text, end="")
check 1 at command 3: sat, model of command 4: refuted by the assertion of command 2
verdict: invalid, confirmed 0, refuted 1, undecided 0, unchecked 0

`explain` tells where in both texts that is, and why:

>>> told = explain(script, "sat ((define-fun x () Int 3))", print_success=False).told[0]
>>> told.outcome, told.spot, told.parts[0].kind, told.parts[0].text
('refuted', Spot(text='script', line=1, column=38), 'false', '(< 5 x)')
>>> told.parts[0].values, told.parts[0].items
((Value(term='x', given=None, value='3'),), (Item(name='x', spot=Spot(text='answers', line=1, column=6)),))

`check_files` checks two files, and a `Session` takes both texts piece by piece, and hands out each line once it is decided:

>>> with Session(print_success=False) as session:
...     session.script("(declare-const x Int)(assert (< 5 x))(check-sat)(get-model)(check-sat)")
...     session.answers("sat ((define-fun x () Int 7))")
...     for line in session.lines():
...         print(line.outcome)
confirmed

`python -m smtcheck` takes the command line of the program `smtcheck`. It reads both files whole before it prints, and ends with 0 to 3 only
where it printed a whole report.

The shared library is the file that the variable SMTCHECK_LIBRARY names, or else `libsmtcheck.so` beside this file.
"""
from __future__ import annotations

import argparse
import ctypes
import json
import operator
import os
import re
import sys
from typing import Any, Callable, Dict, Iterator, List, NamedTuple, NoReturn, Optional, Sequence, Tuple, Union

__all__ = [
    "Explained", "Explanation", "FORMS", "Item", "LibraryError", "Line", "PROFILES", "Place", "Remark", "Report", "SOLVERS", "STEPS", "Session",
    "Spot", "VERDICTS", "Value", "VerdictError", "check", "check_files", "explain", "line_of", "main", "version",
]
__version__ = "0.13.1"

VERDICTS = ("valid", "invalid", "not decided", "refused")
PROFILES = ("base", "wide")
SOLVERS = ("z3", "cvc5", "cvc4", "bitwuzla", "boolector", "smtinterpol")
FORMS = ("text", "json", "sarif")
MEMORY, OPTIONS, OPEN, LONG = 4, 5, 6, 7
STEPS = 10_000_000

Text = Union[str, bytes, bytearray, memoryview]
Path = Union[str, bytes, "os.PathLike[str]", "os.PathLike[bytes]"]


class LibraryError(ImportError):
    """The shared library is not there, or is none of smtcheck."""


class VerdictError(Exception):
    """A dialogue that is not valid; `report` has its report."""

    def __init__(self, report: "Report") -> None:
        super().__init__(report.text.rstrip("\n"))
        self.report = report


class Place(NamedTuple):
    """What a line names beside its check. Commands, answers and items count from 1, and bytes from 0."""

    model: Optional[int] = None
    """the command that the model was printed for"""
    item: Optional[int] = None
    """the item of that model"""
    symbol: Optional[int] = None
    """the command that declares the symbol which that model lacks"""
    assertion: Optional[int] = None
    """the command of the assertion"""
    answer: Optional[int] = None
    """the answer"""
    text: Optional[str] = None
    """`script` or `answers`"""
    byte: Optional[int] = None
    """the byte of that text"""

    def __repr__(self) -> str:
        return f"Place({', '.join(f'{name}={value!r}' for name, value in self._asdict().items() if value is not None)})"


class Line(NamedTuple):
    """A line of a report, but for that of the verdict."""

    check: Optional[int]
    """the check, counted from 1; of a fault none"""
    command: Optional[int]
    """the command of the check or of the fault, if it is at one"""
    outcome: str
    """`confirmed`, `refuted`, `not decided`, `no model`, `lacks`, `too long`, or the letters of an item's fault, as `F7`; of a check with
    another answer than `sat` that answer; of a fault `fault` and its letters, as `fault P2` or `fault C7 F3`"""
    place: Place
    """what else the line names"""

    def to_object(self) -> "dict[str, object]":
        """The line as a dictionary that JSON has a form for."""
        place = {name: value for name, value in self.place._asdict().items() if value is not None}
        return {"check": self.check, "command": self.command, "outcome": self.outcome, "place": place}


class Report(NamedTuple):
    """The report on a dialogue."""

    verdict: str
    """`valid`, `invalid`, `not decided` or `refused`"""
    confirmed: int
    """how many `sat` are confirmed by the models printed for them"""
    refuted: int
    """how many `sat` have a model that makes an assertion or an assumption false"""
    undecided: int
    """how many `sat` are neither"""
    unchecked: int
    """how many checks were answered otherwise than `sat`"""
    lines: Tuple[Line, ...]
    """a line for each check, and one for the fault, if there is one"""
    text: str
    """the text that the program prints"""

    @property
    def status(self) -> int:
        """The exit status of the program."""
        return VERDICTS.index(self.verdict)

    def __str__(self) -> str:
        return self.text

    def __bool__(self) -> bool:
        """Whether the verdict is `valid`."""
        return self.verdict == "valid"

    def raise_for_verdict(self) -> "Report":
        """The report itself where it is valid; else it raises VerdictError.

        >>> script = "(declare-const x Int)(assert (< 5 x))(check-sat)(get-model)"
        >>> check(script, "sat ((define-fun x () Int 7))", print_success=False).raise_for_verdict().confirmed
        1
        >>> check(script, "sat ((define-fun x () Int 3))", print_success=False).raise_for_verdict()
        Traceback (most recent call last):
            ...
        smtcheck.VerdictError: check 1 at command 3: sat, model of command 4: refuted by the assertion of command 2
        verdict: invalid, confirmed 0, refuted 1, undecided 0, unchecked 0
        """
        if not self:
            raise VerdictError(self)
        return self

    def to_json(self, **options: object) -> str:
        """The report as an object of JSON. `lines` has an object for each check, and one for the fault, in order; in its `place` stands
        only what the line names. The options are those of `json.dumps`.

        >>> script = "(declare-const x Int)(assert (< 5 x))(check-sat)(get-model)"
        >>> print(check(script, "sat ((define-fun x () Int 3))", print_success=False).to_json(indent=1))
        {
         "verdict": "invalid",
         "status": 1,
         "confirmed": 0,
         "refuted": 1,
         "undecided": 0,
         "unchecked": 0,
         "lines": [
          {
           "check": 1,
           "command": 3,
           "outcome": "refuted",
           "place": {
            "model": 4,
            "assertion": 2
           }
          }
         ]
        }
        """
        told = {"verdict": self.verdict, "status": self.status, "confirmed": self.confirmed, "refuted": self.refuted}
        told.update({"undecided": self.undecided, "unchecked": self.unchecked, "lines": [line.to_object() for line in self.lines]})
        return json.dumps(told, **options)  # type: ignore[arg-type]


class Spot(NamedTuple):
    """A place in a text. Lines count from 1, and the bytes of a line too."""

    text: str
    """`script` or `answers`"""
    line: int
    column: int


class Value(NamedTuple):
    """What a term has for a value in a model."""

    term: str
    given: Optional[str]
    """of a variable, the term that it stands for"""
    value: str
    """a constant, or `open`"""


class Item(NamedTuple):
    """The item of a model that gives a name its value."""

    name: str
    spot: Spot


class Remark(NamedTuple):
    """One thing that is told."""

    kind: str
    """the words for what it is: `check` or `fault`, `claim`, `model`, `also false`, `in use` and so on; `true`, `false`, `open` or `value`
    of a smallest part of a claim, which makes the claim false or open; of a sentence nothing"""
    number: Optional[int]
    """the number of what it is, as of a check or an item"""
    spot: Optional[Spot]
    """where that stands; of a part that stands in a definition, where the definition does"""
    command: Optional[int]
    """the command that stands there"""
    within: Optional[str]
    """the definition or label that a part stands in, if it is in one"""
    text: str
    """what stands there, or what there is to say, in at most 200 characters; of a long text ` .. ` stands for the middle"""
    reason: Optional[str]
    """of a part why it is open, or why it is told"""
    values: Tuple[Value, ...]
    """of a part the values in it"""
    items: Tuple[Item, ...]
    """of a part the items of the model that give them"""


class Explained(NamedTuple):
    """What is told of a check that is not confirmed, or of the fault."""

    check: Optional[int]
    """the check, counted from 1; of a fault none"""
    outcome: str
    """`unchecked`, `no-model`, `item-fault`, `lacks`, `too-long`, `refuted` or `not-decided`; of a fault `text-fault`, `command-fault`,
    `missing-answer`, `unexpected-answer` or `extra-answer`"""
    remarks: Tuple[Remark, ...]
    """first the check or the fault itself, then why"""
    left_out: int
    """how many remarks more there are: only the first 199 are told"""

    @property
    def spot(self) -> Optional[Spot]:
        """Where the check or the fault stands."""
        return self.remarks[0].spot if self.remarks else None

    @property
    def command(self) -> Optional[int]:
        """The command of the check or of the fault, if it is at one."""
        return self.remarks[0].command if self.remarks else None

    @property
    def parts(self) -> Tuple[Remark, ...]:
        """The smallest parts of the claim that make it false or open."""
        return tuple(remark for remark in self.remarks if remark.kind in ("true", "false", "open", "value"))


class Explanation(NamedTuple):
    """The explanation of a report."""

    verdict: str
    """`valid`, `invalid`, `not decided` or `refused`"""
    told: Tuple[Explained, ...]
    """of each check that is not confirmed, and of the fault, in order"""
    text: str
    """what the program prints behind the report with `--explain`"""

    def __str__(self) -> str:
        return self.text

    def to_json(self, **options: object) -> str:
        """The explanation as an object of JSON: `verdict`, and `told` with all that each Explained has, by its names. The options are those
        of `json.dumps`.

        >>> script = "(declare-const x Int)(assert (< 5 x))(check-sat)(get-model)"
        >>> told = json.loads(explain(script, "sat ((define-fun x () Int 3))", print_success=False).to_json())
        >>> told["told"][0]["remarks"][2]["values"]
        [{'term': 'x', 'given': None, 'value': '3'}]
        """
        return json.dumps({"verdict": self.verdict, "told": _object_of(self.told)}, **options)  # type: ignore[arg-type]


def _object_of(value: object) -> object:
    """A value with names in place of places, for JSON."""
    if isinstance(value, tuple):
        names = getattr(value, "_fields", None)
        return [_object_of(part) for part in value] if names is None else {name: _object_of(part) for name, part in zip(names, value)}
    return value


class _Options(ctypes.Structure):
    _fields_ = [("steps", ctypes.c_uint64), ("print_success", ctypes.c_bool), ("wide", ctypes.c_bool)]


class _Summary(ctypes.Structure):
    _fields_ = [(name, ctypes.c_uint64) for name in ("confirmed", "refuted", "undecided", "unchecked", "lines")]


class _Session(ctypes.Structure):
    _fields_ = [("at", ctypes.c_void_p)]


_loaded: Optional[ctypes.CDLL] = None


def _library() -> ctypes.CDLL:
    """The shared library, which is loaded once."""
    global _loaded
    if _loaded is None:
        name = os.environ.get("SMTCHECK_LIBRARY") or os.path.join(os.path.dirname(os.path.abspath(__file__)), "libsmtcheck.so")
        try:
            _loaded = _with_types(ctypes.CDLL(name))
        except (OSError, AttributeError) as error:
            raise LibraryError(
                f"the shared library of smtcheck could not be loaded: {error}. SMTCHECK_LIBRARY names it; without that variable it stands "
                "beside smtcheck.py. scripts/c_library.sh FOLDER makes it"
            ) from error
    return _loaded


def _with_types(library: ctypes.CDLL) -> ctypes.CDLL:
    """The library, of which each call has its types."""
    size, number, text = ctypes.c_size_t, ctypes.c_uint32, ctypes.c_char_p
    options, session, wanted = ctypes.POINTER(_Options), ctypes.POINTER(_Session), ctypes.POINTER(size)
    calls = {
        "validate": (number, [text, size, text, size, options, ctypes.POINTER(_Summary), text, size, wanted]),
        "explain": (number, [text, size, text, size, options, number, text, size, wanted]),
        "version": (size, [text, size]),
        "session_new": (number, [options, session]),
        "session_script": (number, [session, text, size]),
        "session_answers": (number, [session, text, size]),
        "session_end_script": (number, [session]),
        "session_end_answers": (number, [session]),
        "session_verdict": (number, [session]),
        "session_text": (number, [session, text, size, wanted]),
        "session_free": (None, [session]),
    }
    for name, (result, arguments) in calls.items():
        call = getattr(library, "smtcheck_" + name)
        call.restype, call.argtypes = result, arguments
    return library


def _bytes_of(text: Text, name: str) -> bytes:
    """The bytes of an argument that is a text."""
    if isinstance(text, str):
        return text.encode("utf-8", "surrogateescape")
    if isinstance(text, (bytes, bytearray, memoryview)):
        return bytes(text)
    raise TypeError(f"{name} is a {type(text).__name__}, and no str or bytes" + (": check_files takes paths" if hasattr(text, "__fspath__") else ""))


def _options_of(print_success: bool, steps: int, profile: str) -> _Options:
    """The options, if they have the types and the ranges that they need."""
    if not isinstance(print_success, bool):
        raise TypeError(f"print_success is {print_success!r}, and not True or False")
    if isinstance(steps, bool) or not hasattr(steps, "__index__"):
        raise TypeError(f"steps is {steps!r}, and no int")
    steps = operator.index(steps)
    if not 0 <= steps < 2**64 - 1:
        raise ValueError(f"steps is {steps}, and not from 0 to {2**64 - 2}")
    if not isinstance(profile, str):
        raise TypeError(f"profile is {profile!r}, and no str")
    if profile not in PROFILES:
        raise ValueError(f"profile is {profile!r}, and neither 'base' nor 'wide'")
    return _Options(steps, print_success, profile == "wide")


def version() -> str:
    """The version of the library, and the toolchain that proved it.

    >>> version().split()[1]
    '(rattle-kit-13f'
    """
    room = 1
    while True:
        buffer = ctypes.create_string_buffer(room)
        wanted = _library().smtcheck_version(buffer, room)
        if wanted <= room:
            return buffer.raw[:wanted].decode("ascii")
        room = wanted


def _filled(call: Callable[..., int]) -> Tuple[int, str]:
    """What a call answers, and the text that it fills: at the second time, if there was no room for it at the first."""
    room = 4096
    while True:
        buffer, wanted = ctypes.create_string_buffer(room), ctypes.c_size_t()
        outcome = call(buffer, room, wanted)
        if outcome == MEMORY:
            raise MemoryError("smtcheck: memory")
        if outcome == OPTIONS:
            raise ValueError("smtcheck: options")
        if wanted.value <= room:
            return outcome, buffer.raw[: wanted.value].decode("ascii")
        room = wanted.value


def check(script: Text, answers: Text, print_success: bool = True, steps: int = STEPS, profile: str = "base") -> Report:
    """The report on a dialogue: the script that a solver read, and the text that it printed, in order.

    `print_success` says whether the solver prints `success`, from the start, for each command that has no answer of its own: z3, cvc5,
    cvc4 and bitwuzla don't, unless they are told to. `steps` is how many steps the evaluation of a model may take, below 2^64 - 1.
    `profile` is the language that is taken, `base` or `wide`. A text that is a `str` is taken in UTF-8.

    >>> check("(check-sat)", "unsat", print_success=False).lines
    (Line(check=1, command=1, outcome='unsat', place=Place()),)
    >>> check("(assert (< 1 2))", "", print_success=True).lines
    (Line(check=None, command=1, outcome='fault P1', place=Place()),)
    >>> [check("(push)", "", print_success=False, profile=profile).verdict for profile in PROFILES]
    ['refused', 'valid']

    MemoryError is raised where memory was refused, ValueError for a number of steps out of range or a profile that there is not, and
    TypeError for an argument of another type, which it names.
    """
    options, summary = _options_of(print_success, steps, profile), _Summary()
    texts = [_bytes_of(script, "script"), _bytes_of(answers, "answers")]
    outcome, text = _filled(
        lambda *room: _library().smtcheck_validate(texts[0], len(texts[0]), texts[1], len(texts[1]), options, summary, *room)
    )
    lines = tuple(line_of(line) for line in text.splitlines()[:-1])
    return Report(
        VERDICTS[outcome], summary.confirmed, summary.refuted, summary.undecided, summary.unchecked, lines, text
    )


def _explained(texts: Sequence[bytes], options: _Options, form: str) -> Tuple[int, str]:
    """The number of the verdict, and the explanation in one of FORMS."""
    script, answers = texts
    return _filled(
        lambda *room: _library().smtcheck_explain(script, len(script), answers, len(answers), options, FORMS.index(form), *room)
    )


def explain(script: Text, answers: Text, print_success: bool = True, steps: int = STEPS, profile: str = "base") -> Explanation:
    """Where each check that is not confirmed stands in the two texts, and the fault, and why. The arguments are those of `check`.

    The verdict is proved to be that of the report, and values are those of the proved evaluator. All else that it says is tested.

    >>> told = explain("(assert (and true))", "", print_success=False).told[0]
    >>> told.check, told.outcome, told.spot, told.command
    (None, 'command-fault', Spot(text='script', line=1, column=1), 1)
    >>> told.remarks[1].text
    'C7: F4: arguments that the head does not take, or another sort than is needed'
    >>> explain("(check-sat)(get-model)", "sat ()", print_success=False)
    Explanation(verdict='valid', told=(), text='')
    """
    options = _options_of(print_success, steps, profile)
    texts = [_bytes_of(script, "script"), _bytes_of(answers, "answers")]
    outcome, told = _explained(texts, options, "json")
    return Explanation(VERDICTS[outcome], _told_of(told, texts[1]), _explained(texts, options, "text")[1])


def check_files(script: Path, answers: Path, print_success: bool = True, steps: int = STEPS, profile: str = "base") -> Report:
    """The report on two files, as `check` gives it. OSError is raised where one can't be read."""
    options = _options_of(print_success, steps, profile)
    texts = []
    for name, path in (("script", script), ("answers", answers)):
        if not isinstance(path, (str, bytes)) and not hasattr(path, "__fspath__"):
            raise TypeError(f"{name} is a {type(path).__name__}, and no path")
        with open(path, "rb") as file:
            texts.append(file.read())
    return check(texts[0], texts[1], options.print_success, options.steps, profile)


class Session:
    """A dialogue that is told piece by piece. It is a context manager, which gives its memory back at its end, and stays on one thread.

    A piece may end anywhere, also inside a token. A text is told its end once, and no piece behind it: ValueError is raised else, and for
    a session that was closed. MemoryError says that memory was refused, and that the session goes no further.

    >>> with Session(print_success=False) as session:
    ...     session.script("(declare-const p Bool)(assert p)(check-sat)(get-mo")
    ...     session.answers("sat ((define-fun p () Bool false))")
    ...     list(session.lines())
    ...     session.script("del)")
    ...     [line.outcome for line in session.lines()]
    ...     session.end_script()
    ...     session.end_answers()
    ...     session.verdict
    ...     print(session.text, end="")
    []
    ['refuted']
    'invalid'
    check 1 at command 3: sat, model of command 4: refuted by the assertion of command 2
    verdict: invalid, confirmed 0, refuted 1, undecided 0, unchecked 0
    """

    def __init__(self, print_success: bool = True, steps: int = STEPS, profile: str = "base") -> None:
        self._session = _Session()
        self._ended = {"script": False, "answers": False}
        self._lines: List[str] = []
        self._told = 0
        self._answered(_library().smtcheck_session_new(_options_of(print_success, steps, profile), self._session))

    def __enter__(self) -> "Session":
        return self

    def __exit__(self, *_: object) -> None:
        self.close()

    def __del__(self) -> None:
        if getattr(self, "_session", None) is not None:
            self.close()

    def close(self) -> None:
        """Gives the memory back. What was told stays in `text`."""
        if self._session.at:
            _library().smtcheck_session_free(self._session)
            self._session.at = None

    def script(self, piece: Text) -> None:
        """Takes the next bytes of the script."""
        self._tell("script", piece)

    def answers(self, piece: Text) -> None:
        """Takes the next bytes of the answers."""
        self._tell("answers", piece)

    def end_script(self) -> None:
        """Takes the end of the script."""
        self._end("script")

    def end_answers(self) -> None:
        """Takes the end of the answers."""
        self._end("answers")

    def lines(self) -> Iterator[Line]:
        """The lines that are decided and were not handed out, in order, without that of the verdict. None is taken back."""
        self._take()
        while self._told < len(self._lines):
            text = self._lines[self._told]
            self._told += 1
            if not text.startswith("verdict: "):
                yield line_of(text)

    @property
    def verdict(self) -> Optional[str]:
        """`valid`, `invalid`, `not decided` or `refused` once that is decided, and None before."""
        self._opened()
        outcome = _library().smtcheck_session_verdict(self._session)
        return VERDICTS[outcome] if outcome < len(VERDICTS) else None

    @property
    def text(self) -> str:
        """The text of all lines that are decided."""
        if self._session.at:
            self._take()
        return "".join(line + "\n" for line in self._lines)

    def _opened(self) -> None:
        if not self._session.at:
            raise ValueError("the session is closed")

    def _answered(self, outcome: int) -> None:
        if outcome == MEMORY:
            raise MemoryError("smtcheck: memory")
        if outcome == LONG:
            raise OverflowError("smtcheck: a text of 2^64 bytes or more")

    def _tell(self, side: str, piece: Text) -> None:
        self._opened()
        text = _bytes_of(piece, "piece")
        if self._ended[side]:
            raise ValueError(f"a piece of the {side} behind its end")
        call = _library().smtcheck_session_script if side == "script" else _library().smtcheck_session_answers
        self._answered(call(self._session, text, len(text)))

    def _end(self, side: str) -> None:
        self._opened()
        if self._ended[side]:
            raise ValueError(f"a second end of the {side}")
        self._ended[side] = True
        call = _library().smtcheck_session_end_script if side == "script" else _library().smtcheck_session_end_answers
        self._answered(call(self._session))

    def _take(self) -> None:
        """Takes the lines that are decided from the library."""
        self._opened()
        wanted, room = ctypes.c_size_t(), 4096
        while True:
            buffer = ctypes.create_string_buffer(room)
            if _library().smtcheck_session_text(self._session, buffer, room, wanted) == MEMORY:
                raise MemoryError("smtcheck: memory")
            if wanted.value == 0:
                return
            if wanted.value > room:
                room = wanted.value
            else:
                self._lines += buffer.raw[: wanted.value].decode("ascii").splitlines()


_CHECK = re.compile(r"check (\d+) at command (\d+): (?:sat, )?(?:model of command (\d+): )?(.*)")
_FINDINGS = (
    (re.compile(r"refuted by the assertion of command (\d+)"), "refuted", "assertion"),
    (re.compile(r"assertion of command (\d+) not decided"), "not decided", "assertion"),
    (re.compile(r"lacks the symbol of command (\d+)"), "lacks", "symbol"),
    (re.compile(r"item (\d+) (.+)"), "", "item"),
)
_FAULT = re.compile(r"(fault \w+(?: [A-Z]\d+)?)(?: in the (script|answers) at byte (\d+))?(?: at command (\d+))?(?:,? (?:at )?answer (\d+))?")


def _number(digits: Optional[str]) -> Optional[int]:
    return None if digits is None else int(digits)


def line_of(text: str) -> Line:
    """The line of this text, which is one of a report, and not that of the verdict.

    >>> line_of("check 2 at command 12: sat, model of command 13: item 2 F7")
    Line(check=2, command=12, outcome='F7', place=Place(model=13, item=2))
    >>> line_of("fault X3 in the script at byte 47")
    Line(check=None, command=None, outcome='fault X3', place=Place(text='script', byte=47))
    >>> line_of("fault P3 at answer 6")
    Line(check=None, command=None, outcome='fault P3', place=Place(answer=6))
    """
    found = _CHECK.fullmatch(text)
    if found is None:
        found = _FAULT.fullmatch(text)
        if found is None:
            raise ValueError(f"no line of a report: {text}")
        outcome, side, byte, command, answer = found.groups()
        return Line(None, _number(command), outcome, Place(text=side, byte=_number(byte), answer=_number(answer)))
    check_number, command, model, finding = found.groups()
    place = Place(model=_number(model))
    for form, outcome, name in _FINDINGS:
        said = form.fullmatch(finding)
        if said:
            finding = outcome or said.group(2)
            place = place._replace(**{name: int(said.group(1))})
    return Line(int(check_number), int(command), finding, place)


_DEFINED = re.compile(rb"\((?:\s|;[^\n\r]*)*[^\s()|;\"]+(?:\s|;[^\n\r]*)*(?:\|([^|]*)\||([^\s()|;\"]+))")
_SIMPLE = re.compile(r"[A-Za-z~!@$%^&*_+=<>.?/-][0-9A-Za-z~!@$%^&*_+=<>.?/-]*")


def _name_at(text: bytes, place: int) -> Optional[str]:
    """The name of the item that stands at a byte of a text, which an explanation may show in part."""
    found = _DEFINED.match(text, place)
    if found is None:
        return None
    name = (found.group(2) if found.group(1) is None else found.group(1)).decode("utf-8", "surrogateescape")
    return name if _SIMPLE.fullmatch(name) else f"|{name}|"


def _spot_of(told: "Dict[str, Any]") -> Spot:
    return Spot(told["file"], told["line"], told["column"])


def _remark_of(told: "Dict[str, Any]", answers: bytes, begins: "List[int]") -> Remark:
    """The remark of an object of JSON, with the whole names of items; `begins` has the byte of the answers where each line begins."""

    def item_of(each: "Dict[str, Any]") -> Item:
        spot = _spot_of(each["spot"])
        return Item(_name_at(answers, begins[spot.line - 1] + spot.column - 1) or each["name"], spot)

    spot = None if told["spot"] is None else _spot_of(told["spot"])
    values = tuple(Value(each["term"], each["given"], each["value"]) for each in told["values"])
    items = tuple(item_of(each) for each in told["items"])
    return Remark(told["kind"], told["number"], spot, told["command"], told["in"], told["text"], told["reason"], values, items)


def _told_of(text: str, answers: bytes) -> "Tuple[Explained, ...]":
    """What an explanation in JSON tells of the checks that are not confirmed, and of the fault. The verdict comes last there."""
    begins = [0, *(end.end() for end in re.finditer(rb"\n", answers))]
    told = []
    for line in text.splitlines()[:-1]:
        each = json.loads(line)
        if each["outcome"] != "confirmed":
            remarks = tuple(_remark_of(remark, answers, begins) for remark in each["remarks"])
            told.append(Explained(each["check"], each["outcome"], remarks, each["left_out"]))
    return tuple(told)


class _Once(argparse.Action):
    """An option that is given once at most."""

    def __call__(self, parser: argparse.ArgumentParser, given: argparse.Namespace, value: object, option: Optional[str] = None) -> None:
        if hasattr(given, self.dest + "_given"):
            parser.error(f"{option} is given twice")
        setattr(given, self.dest + "_given", True)
        setattr(given, self.dest, value)


class _Parser(argparse.ArgumentParser):
    """The command line, which ends with the program's status where it is refused or asks for help."""

    def exit(self, status: int = 0, message: Optional[str] = None) -> NoReturn:  # type: ignore[override]
        if message:
            sys.stderr.write(message)
        sys.exit(5)


def _with_forms(words: Sequence[str]) -> List[str]:
    """The words, in which each `--explain` has a form: one that is given stands behind `=`, and no next word is taken for it."""
    end = words.index("--") if "--" in words else len(words)
    return ["--explain=text" if word == "--explain" and at < end else word for at, word in enumerate(words)]


def _steps(word: str) -> int:
    if not re.fullmatch(r"\+?[0-9]+", word) or int(word) >= 2**64 - 1:
        raise argparse.ArgumentTypeError(f"{word} is not from 0 to {2**64 - 2}")
    return int(word)


def _said(word: str, reason: str = "") -> int:
    """Says on standard error why there is no report, and in a second line which file it was and what the system says of it."""
    sys.stderr.write(f"smtcheck: {word}\n")
    if reason:
        sys.stderr.write(f"{reason}\n")
    return 4


def _text_of(name: str, is_taken: bool) -> bytes:
    """The bytes of a file, or of standard input where its name is `-`."""
    if name != "-":
        with open(name, "rb") as file:
            return file.read()
    if is_taken or sys.stdin is None:
        raise OSError("standard input is the script" if is_taken else "there is no standard input")
    return sys.stdin.buffer.read()


def _print(text: str) -> bool:
    """Whether the whole text could be written to standard output, which is closed where it could not."""
    try:
        sys.stdout.write(text)
        sys.stdout.flush()
        return True
    except (OSError, ValueError):
        # What stays in the buffer is not to be tried again at the interpreter's end.
        sys.stdout = None  # type: ignore[assignment]
        return False


def main(words: Optional[Sequence[str]] = None) -> int:
    """The program: prints the report on two files, and answers its exit status. It answers 0 to 3 only behind a whole report, or behind the
    whole explanation that it prints in place of a report."""
    parser = _Parser("smtcheck", description="Checks the models that an SMT solver printed.", allow_abbrev=False)
    parser.add_argument("script", metavar="SCRIPT", help="the script that the solver read; one of the two files may be `-`, standard input")
    parser.add_argument("answers", metavar="ANSWERS", help="what the solver printed")
    parser.add_argument("--solver", action=_Once, choices=SOLVERS, help="which solver printed it: sets the next two, where they are not given")
    parser.add_argument("--print-success", action=_Once, choices=("on", "off"), help="whether it prints `success`, from the start (on)")
    parser.add_argument("--profile", action=_Once, choices=PROFILES, help="which language is taken (base)")
    parser.add_argument("--steps", action=_Once, metavar="N", type=_steps, default=STEPS, help="how many steps the evaluation of a model may take")
    explain_help = "tells where and why, behind the report; with =json or =sarif in place of it. The files are called `script` and `answers`"
    parser.add_argument("--explain", action=_Once, choices=FORMS, nargs="?", metavar="=FORM", help=explain_help)
    parser.add_argument("--hints", action=_Once, choices=("on", "off"), help="changes nothing: only the program has hints")
    parser.add_argument("--strict", action="store_true", help="ends with 2 in place of 0 unless each check is confirmed, and there is one")
    parser.add_argument("-V", "--version", action="store_true", help="prints the version")
    try:
        given_words = sys.argv[1:] if words is None else list(words)
        if given_words in (["-V"], ["--version"]):
            return 0 if _print(f"smtcheck {version()}\n") else _said("output")
        given = parser.parse_args(_with_forms(given_words))
        if given.version:
            parser.error("--version stands alone")
        texts = []
        for name in ("script", "answers"):
            path = getattr(given, name)
            try:
                texts.append(_text_of(path, name == "answers" and given.script == "-"))
            except (OSError, ValueError) as error:
                told = getattr(error, "strerror", None) or error
                return _said(name, f"{'standard input' if path == '-' else path}: {told}")
        prints_success = given.print_success or ("on" if given.solver in (None, "smtinterpol") else "off")
        options = prints_success == "on", given.steps, given.profile or ("wide" if given.solver else "base")
        report = check(texts[0], texts[1], *options)
        printed = "" if given.explain in ("json", "sarif") else report.text
        if given.explain:
            printed += _explained(texts, _options_of(*options), given.explain)[1]
        if not _print(printed):
            return _said("output")
        is_strict_failure = given.strict and report.status == 0 and (report.unchecked > 0 or report.confirmed == 0)
        return 2 if is_strict_failure else report.status
    except LibraryError as error:
        return _said(f"library: {error}")
    except MemoryError:
        return _said("memory")
    except Exception as error:  # pylint: disable=broad-except
        # An interpreter that ends by an exception ends with 1, which is a verdict.
        return _said(f"{type(error).__name__}: {error}")


if __name__ == "__main__":
    sys.exit(main())
