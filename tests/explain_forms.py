"""Compares the forms of `--explain` with one another and with the report.

explain_forms.py PROGRAM FOLDER: the dialogues in FOLDER, a folder for each with `s`, `a`, and the options in `words`; and one with other names of
files. Each form leaves the status as it is. The text stands behind the report, and is what the objects say; there is one object for each line of the
report, which agrees with it; a result of SARIF tells the same as its object. Objects and documents fit the schemas of docs/, which
name no kind of remark that is not seen here. Says what is wrong, or nothing.
"""
import copy
import json
import os
import re
import subprocess
import sys
import tempfile
from urllib.parse import unquote_to_bytes

TOP = os.path.join(os.path.dirname(os.path.abspath(__file__)), "..")

# What a line of a report says, by its form.
OUTCOMES = [(re.compile(form), outcome) for form, outcome in (
    (r"check .*: sat, confirmed", "confirmed"),
    (r"check .*: (unsat|unknown|unsupported|error)", "unchecked"),
    (r"check .*: sat, no model", "no-model"),
    (r"check .*: item \d+ F\d", "item-fault"),
    (r"check .*: lacks the symbol of command \d+", "lacks"),
    (r"check .*: too long", "too-long"),
    (r"check .*: refuted by .*", "refuted"),
    (r"check .*: as.* not decided", "not-decided"),
    (r"fault X.*", "text-fault"),
    (r"fault C.*", "command-fault"),
    (r"fault P1 .*", "missing-answer"),
    (r"fault P2 .*", "unexpected-answer"),
    (r"fault P3 .*", "extra-answer"),
    (r"verdict: (valid|invalid|refused),.*", None),
    (r"verdict: not decided,.*", "not-decided"),
)]
LEVELS = {"unchecked": "note", "no-model": "warning", "too-long": "warning", "not-decided": "warning"}


class Wrong(Exception):
    """What is told is not so."""


# ---- JSON Schema, as far as the schemas of docs/ use it

TYPES = {"null": type(None), "string": str, "integer": int, "array": list, "object": dict}
LIMITS = {
    "minimum": lambda value, limit: type(value) is not int or value >= limit,
    "maxLength": lambda value, limit: type(value) is not str or len(value) <= limit,
    "minItems": lambda value, limit: type(value) is not list or len(value) >= limit,
    "maxItems": lambda value, limit: type(value) is not list or len(value) <= limit,
    "uniqueItems": lambda value, _: type(value) is not list or len(set(map(json.dumps, value))) == len(value),
    "pattern": lambda value, form: type(value) is not str or re.search(form, value) is not None,
    "const": lambda value, wanted: value == wanted and type(value) is type(wanted),
    "enum": lambda value, wanted: value in wanted and type(value) is not bool,
    "required": lambda value, names: type(value) is not dict or all(name in value for name in names),
    "type": lambda value, names: any(type(value) is TYPES[name] for name in ([names] if type(names) is str else names)),
}
NOTES = ("$schema", "title", "description", "$defs", "properties", "additionalProperties", "items", "$ref", "anyOf")


def schema_of(name):
    """A schema of docs/."""
    with open(os.path.join(TOP, "docs", name), encoding="utf-8") as file:
        return json.load(file)


def misfits(value, schema, root):
    """What in a value does not fit a schema, which is part of another."""
    for word, limit in schema.items():
        if word in LIMITS:
            if not LIMITS[word](value, limit):
                yield "%s %s: %.200r" % (word, limit, value)
        elif word not in NOTES:
            raise Wrong("no such word of a schema is known: %s" % word)
    if "$ref" in schema:
        yield from misfits(value, root["$defs"][schema["$ref"][len("#/$defs/") :]], root)
    if "anyOf" in schema and all(any(misfits(value, each, root)) for each in schema["anyOf"]):
        yield "no one of several: %.200r" % value
    if type(value) is dict and "properties" in schema:
        for name, each in value.items():
            if name in schema["properties"]:
                yield from misfits(each, schema["properties"][name], root)
            elif schema.get("additionalProperties") is False:
                yield "another property: %s" % name
    if type(value) is list and "items" in schema:
        for each in value:
            yield from misfits(each, schema["items"], root)


def changed(value):
    """Copies of a value, in each of which something lacks, is too much, or is of another type."""
    if type(value) is dict:
        yield {**value, "more": 0}
        for name in value:
            yield {key: each for key, each in value.items() if key != name}
            for other in changed(value[name]):
                yield {**value, name: other}
    elif type(value) is list:
        yield {}
        for place in range(len(value)):
            for other in changed(value[place]):
                yield [*value[:place], other, *value[place + 1 :]]
    else:
        yield []


def check_schema(schema, values):
    """That values fit a schema and changed ones do not; and the same by another validator, where there is one."""
    try:
        import jsonschema
    except ImportError:
        other = None
    else:
        jsonschema.Draft202012Validator.check_schema(schema)
        other = jsonschema.Draft202012Validator(schema)
    for value in values:
        for each, fits in [(value, True)] + [(each, False) for each in changed(copy.deepcopy(value))]:
            if (next(misfits(each, schema, schema), None) is None) is not fits or other is not None and other.is_valid(each) is not fits:
                raise Wrong("%s: it %s the schema: %.500s" % (schema["title"], "does not fit" if fits else "fits", json.dumps(each)))


# ---- the text that objects stand for


def place_of(spot):
    """A place as lines begin with it: the last 100 bytes of the file's name, and its other bytes than printable ASCII as `?`."""
    return "%s:%d:%d: " % (re.sub(r"[^ -~]", "?", spot["file"].encode()[-100:].decode("latin-1")), spot["line"], spot["column"])


def lines_of_values(values):
    """Values side by side, each whole on a line."""
    line = ""
    for value in values:
        parts = [value["term"], *([] if value["given"] is None else [value["given"]]), value["value"]]
        piece = " = ".join(parts)
        if not line:
            line = "    " + piece
        elif len(line) + len(piece) + 5 > 200:
            yield line
            line = "    " + piece
        else:
            line += ", " + piece
    if line:
        yield line


def all_lines_of(told):
    """The lines of an object, however many and however long."""
    for remark in told["remarks"]:
        line = "    " if remark["spot"] is None else place_of(remark["spot"])
        line += remark["kind"] + ("" if remark["number"] is None else " %d" % remark["number"])
        line += "" if remark["command"] is None else ", command %d" % remark["command"]
        line += "" if remark["in"] is None else ", in " + remark["in"]
        yield line + (": " if remark["kind"] and remark["text"] else "") + remark["text"]
        if remark["reason"] is not None:
            yield "    " + remark["reason"]
        yield from lines_of_values(remark["values"])
        for item in remark["items"]:
            yield place_of(item["spot"]) + "item " + item["name"]


def lines_of(told):
    """The lines of the text form that an object stands for."""
    lines = [line[:200] for line in all_lines_of(told)]
    left_out = told["left_out"] + max(len(lines) - 199, 0)
    return lines[:199] + (["    (and %d more)" % left_out] if left_out else [])


# ---- the forms


def run(program, folder, words):
    """What the program prints, and its status."""
    done = subprocess.run([program, *words], cwd=folder, stdout=subprocess.PIPE, stderr=subprocess.DEVNULL, timeout=600)
    return done.stdout, done.returncode


def object_of(pairs):
    """An object whose names are all different."""
    if len({name for name, _ in pairs}) < len(pairs):
        raise Wrong("a name twice: %s" % pairs)
    return dict(pairs)


def objects_of(text):
    """The objects of lines, one a line; each fits its schema."""
    if text and not text.endswith(b"\n"):
        raise Wrong("no whole line: %r" % text[-200:])
    found = [json.loads(line.decode(), object_pairs_hook=object_of) for line in text.split(b"\n")[:-1]]
    for told in found:
        for wrong in misfits(told, OBJECT, OBJECT):
            raise Wrong("%s, in %.500s" % (wrong, told))
    return found


def outcome_of(line):
    """What a line of a report says, in the word of its object."""
    (found, outcome), = [(found, outcome) for form, outcome in OUTCOMES for found in [form.fullmatch(line)] if found]
    return found.group(1) if outcome is None else outcome


def check_objects(report, objects):
    """There is an object for each line of a report, which agrees with it."""
    if len(report) != len(objects):
        raise Wrong("%d objects for %d lines" % (len(objects), len(report)))
    for line, told in zip(report, objects):
        number = re.match(r"check (\d+) ", line)
        if told["check"] != (int(number.group(1)) if number else None) or told["outcome"] != outcome_of(line):
            raise Wrong("%s: %s, %s" % (line, told["check"], told["outcome"]))
        is_told = not line.startswith("verdict: ") and told["outcome"] != "confirmed"
        if bool(told["remarks"]) != is_told or told["left_out"] and not is_told:
            raise Wrong("%s: %d remarks" % (line, len(told["remarks"])))
        if is_told and told["remarks"][0]["kind"] != ("check" if number else "fault"):
            raise Wrong("%s: %s" % (line, told["remarks"][0]))


def location(spot, text, texts):
    """A place in SARIF, but for the file, whose name is as the program was given it."""
    before = texts[spot["file"]][spot["byte"] + 1 - spot["column"] : spot["byte"]]
    characters = len(before.decode("utf-8", "replace")) if spot["column"] <= 4096 else len(before)
    region = {"startLine": spot["line"], "startColumn": characters + 1}
    return {"physicalLocation": {"artifactLocation": {"uri": spot["file"]}, "region": region}, "message": {"text": text}}


def result_of(told, texts):
    """The result that stands for an object."""
    spots = [(remark["kind"], remark["spot"]) for remark in told["remarks"] if remark["spot"] is not None]
    main = [spot for kind, spot in spots if kind == "claim"] + [spot for _, spot in spots]
    related = []
    for remark in told["remarks"]:
        related += [] if remark["spot"] is None else [location(remark["spot"], remark["kind"], texts)]
        related += [location(item["spot"], "item", texts) for item in remark["items"]]
    related = [each for place, each in enumerate(related) if each not in related[:place]][:199]
    return {
        "ruleId": told["outcome"],
        "level": LEVELS.get(told["outcome"], "error"),
        "message": {"text": "".join(line + "\n" for line in lines_of(told))},
        "locations": [location(spot, told["outcome"], texts) for spot in main[:1]],
        "relatedLocations": related,
    }


def with_names(result):
    """A result whose files have names in place of URIs, which are relative."""
    result = copy.deepcopy(result)
    for each in result["locations"] + result["relatedLocations"]:
        artifact = each["physicalLocation"]["artifactLocation"]
        if artifact["uri"].startswith("/"):
            raise Wrong("no URI of a file: %s" % artifact["uri"])
        artifact["uri"] = unquote_to_bytes(artifact["uri"].removeprefix("file://")).decode()
    return result


def check_bytes(objects, texts):
    """The bytes of places are those of their lines and columns."""
    remarks = [remark for told in objects for remark in told["remarks"]]
    for spot in [remark["spot"] for remark in remarks if remark["spot"]] + [item["spot"] for remark in remarks for item in remark["items"]]:
        before = texts[spot["file"]][: spot["byte"]]
        if (before.count(b"\n") + 1, len(before) - before.rfind(b"\n")) != (spot["line"], spot["column"]):
            raise Wrong("another byte: %s" % spot)


def check_document(document, objects, texts):
    """A document of SARIF has a result for each object with remarks, which tells the same."""
    for wrong in misfits(document, DOCUMENT, DOCUMENT):
        raise Wrong(wrong)
    results = document["runs"][0]["results"]
    wanted = [result_of(told, texts) for told in objects if told["remarks"]]
    if len(results) != len(wanted):
        raise Wrong("%d results for %d objects with remarks" % (len(results), len(wanted)))
    for result, each in zip(results, wanted):
        found = with_names(result)
        for name in each:
            if found[name] != each[name]:
                raise Wrong("%s: %.500s and %.500s" % (name, found[name], each[name]))


def check_forms(program, folder, words):
    """The forms of one explanation agree: the lines of the report, the objects, and the document."""
    plain, status = run(program, folder, words)
    told = {}
    for form in ("", "=text", "=json", "=sarif"):
        told[form], again = run(program, folder, ["--explain" + form, *words])
        if again != status:
            raise Wrong("--explain%s: status %d and not %d" % (form, again, status))
    report, objects = plain.decode().splitlines(), objects_of(told["=json"])
    check_objects(report, objects)
    text = plain + b"".join(line.encode() + b"\n" for each in objects for line in lines_of(each))
    if told[""] != text or told["=text"] != text:
        raise Wrong("another text: %.2000r and %.2000r" % (told[""], text))
    for line in text.split(b"\n"):
        if len(line) > 200 or re.search(rb"[^ -~]", line):
            raise Wrong("a line that is too long or not printable: %r" % line)
    if not told["=sarif"].endswith(b"\n") or told["=sarif"].count(b"\n") != 1:
        raise Wrong("no line: %.200r" % told["=sarif"])
    document = json.loads(told["=sarif"].decode(), object_pairs_hook=object_of)
    texts = {}
    for name in words[-2:]:
        with open(os.path.join(folder, name), "rb") as file:
            texts[name] = file.read()
    check_bytes(objects, texts)
    check_document(document, objects, texts)
    return report, objects, document


OBJECT, DOCUMENT = schema_of("explanation.schema.json"), schema_of("explanation.sarif.schema.json")

ASKED = b"(declare-const p Bool)(assert p)(check-sat)(get-model)"


def check_names(program):
    """Names of files that a URI does not take as they are; one check is confirmed, one is refuted, and one has a fault."""
    answers = b"".join(b"sat ((define-fun p () Bool %s))" % value for value in (b"true", b"false")) + b"unsat"
    found = []
    for names in (["a b%.smt2", "c#?&d:e.txt"], ["\u00e4 \u4e2d\U0001d11e.smt2", "%41'\"\\|.txt"], ["f/../f//g.smt2", "f/" + "h" * 90]):
        with tempfile.TemporaryDirectory() as folder:
            os.mkdir(os.path.join(folder, "f"))
            for name, text in zip(names, (ASKED + b"(check-sat)(get-model)(check-sat)(pop 1)", answers)):
                with open(os.path.join(folder, name), "wb") as file:
                    file.write(text)
            for paths in (names, [os.path.join(folder, name) for name in names]):
                _, objects, document = check_forms(program, folder, ["--print-success", "off", *paths])
                found.append((objects, document))
                files = {remark["spot"]["file"] for told in objects for remark in told["remarks"] if remark["spot"]}
                if files != set(paths) or [told["outcome"] for told in objects] != ["confirmed", "refuted", "unchecked", "command-fault", "refused"]:
                    raise Wrong("%s: %s" % (paths, objects))
    return found


def words_of(value, schema, root, seen):
    """Notes which words of the enumerations of a schema a value has, by their place in the schema."""
    if "$ref" in schema:
        return words_of(value, root["$defs"][schema["$ref"][len("#/$defs/") :]], root, seen)
    if "enum" in schema:
        seen.setdefault(json.dumps(schema["enum"]), set()).add(value)
    for name, each in schema.get("properties", {}).items():
        words_of(value[name], each, root, seen)
    for each in value if type(value) is list else []:
        words_of(each, schema["items"], root, seen)


def main():
    program = os.path.abspath(sys.argv[1])
    found = []
    for name in sorted(os.listdir(sys.argv[2])):
        folder = os.path.join(sys.argv[2], name)
        try:
            with open(os.path.join(folder, "words"), encoding="utf-8") as file:
                found.append(check_forms(program, folder, [*file.read().split(), "s", "a"])[1:])
        except Wrong as wrong:
            with open(os.path.join(folder, "s"), encoding="latin-1") as file:
                return "%.200s: %s" % (file.read(), wrong)
    for form in ("json", "sarif"):
        with open("/dev/full", "wb") as full:
            done = subprocess.run([program, "--explain=" + form, "s", "a"], cwd=folder, stdout=full, stderr=subprocess.DEVNULL)
        if done.returncode != 4:
            return "--explain=%s: status %d where nothing can be written" % (form, done.returncode)
    try:
        named = check_names(program)
        check_schema(OBJECT, [told for objects, _ in named[:1] for told in objects])
        check_schema(DOCUMENT, [document for _, document in named[:1]])
    except Wrong as wrong:
        return str(wrong)
    seen = {}
    for objects, _ in found + named:
        for told in objects:
            words_of(told, OBJECT, OBJECT, seen)
    lacks = [word for words, those in seen.items() for word in json.loads(words) if word not in those]
    if lacks:
        return "no dialogue of tests/explain.sh has these words of docs/explanation.schema.json: %s" % lacks
    return None


if __name__ == "__main__":
    wrong_one = main()
    if wrong_one is not None:
        print("explain: %s" % wrong_one)
    sys.exit(wrong_one is not None)
