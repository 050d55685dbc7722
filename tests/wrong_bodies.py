#!/usr/bin/env python3
"""Tries the wrong bodies of tests/wrong_bodies, of all crates or of those named, and writes what was refused into tests/wrong_bodies/tried.

A wrong body is refused where the check does not prove the function that it changes. Several of a crate are tried in one check where each
changes a function of its own. Where a function is not tried there, because one that it calls has a wrong body too, it comes again in a check
in which none of the functions leads to another by calls. A wrong body that is refused in neither, or that changes a definition, is tried
alone, where any function that is not proved refuses it.

What was refused is kept in tests/wrong_bodies/out, and not tried again while the wrong body, its crate, all crates below and this script are the same. So
a run that was cut off goes on where it ended. Crates are tried from the lowest on, each to its end.

Wants a checkout in which `rt ci` has passed, since it uses the libraries that were built there."""
import collections
import concurrent.futures
import glob
import hashlib
import itertools
import os
import queue
import re
import shutil
import subprocess
import sys
import tempfile
import threading

TOP = os.path.dirname(os.path.dirname(os.path.abspath(__file__)))
KIT = os.environ.get('RATTLE_KIT', '/opt/rattle')
JOBS = int(os.environ.get('RT_JOBS', '2'))
MOST = 14  # wrong bodies in one check
KEPT = f'{TOP}/tests/wrong_bodies/out'
FUNCTION = re.compile(r'^( *)(?:pub(?:\([a-z]+\))? )?(?:const )?(?:unsafe )?(?:extern "C" )?fn (\w+)')


def read(path):
    with open(path, encoding='utf-8') as file:
        return file.read()


def libraries():
    """The libraries of each crate, as crates.txt has them."""
    found = {}
    for line in read(f'{TOP}/crates.txt').split('\n'):
        line = line.split('#')[0].strip()
        if line:
            name, uses = line.split(':', 1)
            found[name.split()[0]] = uses.split()
    return found


USES = libraries()


def below(crate):
    """The crates of this repository that a crate stands on."""
    found, left = set(), [crate]
    while left:
        for used in USES[left.pop()]:
            if used in USES and used not in found:
                found.add(used)
                left.append(used)
    return sorted(found)


def digest_of(crate):
    """A digest of the files of a crate and of those that it stands on, of the kit, and of this script, which says what is refused."""
    found = hashlib.sha256((read(f'{KIT}/KIT-ID') + read(os.path.abspath(__file__))).encode())
    for used in [*below(crate), crate]:
        for folder in ('src', 'specs', 'proofs'):
            for path in sorted(glob.glob(f'{TOP}/crates/{used}/{folder}/**/*.*', recursive=True)):
                if os.path.isfile(path):
                    found.update(f'{os.path.relpath(path, TOP)}\n{read(path)}\n'.encode())
    return found.hexdigest()


class Pool:
    """Runs so many tasks side by side, those of the first crates first."""

    def __init__(self, jobs):
        self.tasks, self.numbers = queue.PriorityQueue(), itertools.count()
        for _ in range(jobs):
            threading.Thread(target=self.work, daemon=True).start()

    def work(self):
        while True:
            _, _, future, function, item = self.tasks.get()
            try:
                future.set_result(function(item))
            except BaseException as failure:  # (the one who waits for it has to see it)
                future.set_exception(failure)

    def run(self, rank, function, items):
        """The items, each with what the function gives for it, as they are done. Tasks of a lower rank go first."""
        futures = {}
        for item in items:
            future = concurrent.futures.Future()
            futures[future] = item
            self.tasks.put((rank, next(self.numbers), future, function, item))
        for future in concurrent.futures.as_completed(futures):
            yield futures[future], future.result()


def check(crate, folder, only):
    """The check of some functions of a crate, or of all: its status, what it says of each function, and all that it says."""
    kit = f'{KIT}/rlibs'
    root = 'src/lib.rt' if os.path.exists(f'{folder}/src/lib.rt') else 'src/main.rt'
    command = [f'{KIT}/bin/rattle', 'check', '--crate-name', crate, root, '--extern', f'std={kit}/std.rlib', '-L', f'dependency={kit}']
    for used in USES[crate]:
        built = f'{TOP}/crates/{used}/out/rlib/{used}.rlib' if used in USES else f'{kit}/{used}.rlib'
        command += ['--extern', f'{used}={built}']
    for used in below(crate):
        command += ['-L', f'dependency={TOP}/crates/{used}/out/rlib']
    command += ['--antt-project', f'{KIT}/rattle/logic/antt-project.json', '--logic-built', f'{KIT}/logic_built']
    command += ['--links', f'{crate}=', '--jobs', '1']
    for function in only:
        command += ['--only', function]
    ran = subprocess.run(command, cwd=folder, capture_output=True, text=True)
    said = ran.stdout + ran.stderr
    return ran.returncode, dict(re.findall(r'^fn (\S+): (.*)$', said, flags=re.M)), said


def is_refused(said):
    """Whether a function was tried and not proved: a goal of its own stays open, or an answer no longer fits. None where it was not tried."""
    if said is None or re.match(r'(no proof: it calls|not proved; it calls)', said) or 'did not admit' in said or 'borrow checker' in said:
        return None
    return not re.match(r'(proved|no holes)', said)


def functions_of(path):
    """The functions of a source file: where each begins and ends, its name, and the head of its impl."""
    lines = read(path).split('\n')
    places, place = [], 0
    for line in lines:
        places.append(place)
        place += len(line) + 1
    found, head = [], None
    for i, line in enumerate(lines):
        if re.match(r'^(impl\b|(pub )?trait\b)', line):
            head = line
        if line == '}':
            head = None
        match = FUNCTION.match(line)
        if not match:
            continue
        indent, first, last = match.group(1), i, i
        while last < len(lines) - 1 and not re.match(rf'^{indent}(\S.*)?\}}$', lines[last]):
            last += 1
        while first > 0 and re.match(r'^ *(#\[|//)', lines[first - 1]):
            first -= 1
        found.append((places[first], places[last] + len(lines[last]), match.group(2), head if indent else None))
    return found


def full_name(crate, file, name, head):
    """The name by which the check speaks of a function, or the end of it; or a guess at it: what is not found is tried alone."""
    if not head:
        module = file[len('src/'):-len('.rt')].replace('/', '::')
        return '::'.join([crate] + ([] if module in ('lib', 'main') else [module]) + [name])
    plain = re.sub(r'^(pub )?(impl\b(<[^>]*>)?|trait)', '', head.split('{')[0].split(' where ')[0])
    trait, _, of = plain.rpartition(' for ')
    return ''.join(re.findall(r'[A-Z]\w*', of)[:1]) + ''.join(re.findall(r'[A-Z]\w+', trait)) + '::' + name


def said_of(functions, full):
    """What a check says of the function of this name, or of this end of a name; None where it says nothing of one alone."""
    found = [said for name, said in functions.items() if name == full or name.endswith('::' + full)]
    return found[0] if len(found) == 1 else None


class Edit:
    """A wrong body: the texts that it changes, and the function that it changes, if that is one."""

    def __init__(self, path, crate, functions):
        self.name = os.path.basename(path)[:-len('.edit')]
        self.digest = hashlib.sha256(read(path).encode()).hexdigest()[:16]
        self.pairs, self.spans, self.function, self.full = [], [], None, None  # (the function by its file, its name and the head of its impl)
        file = old = None
        for line in read(path).split('\n'):
            if line.startswith('file: '):
                file = line[6:].strip()
            elif line.startswith('old: '):
                old = line[5:]
            elif line.startswith('new: '):
                self.pairs.append((file, old, line[5:]))
        found = set()
        for file, old, new in self.pairs:
            text = read(f'{TOP}/crates/{crate}/{file}')
            start = text.find(old)
            if text.count(old) == 1:
                self.spans.append((file, start, start + len(old), new))
            found |= {(file, name, head) for first, last, name, head in functions.get(file, []) if first <= start <= last} or {None}
        if len(found) == 1 and None not in found and len(self.spans) == len(self.pairs):
            self.function = found.pop()
            file, name, head = self.function
            self.full = full_name(crate, file, name, head)

    def overlaps(self, other):
        return any(a == b and not (d <= e or f <= c) for a, c, d, _ in self.spans for b, e, f, _ in other.spans)


def changed(crate, edits, folder):
    """Copies a crate, with these changes; whether each text to change was there once."""
    shutil.copytree(f'{TOP}/crates/{crate}', folder, ignore=shutil.ignore_patterns('out', 'must-fail'))
    if len(edits) == 1:
        for file, old, new in edits[0].pairs:
            text = read(f'{folder}/{file}')
            if text.count(old) != 1:
                return False
            write(f'{folder}/{file}', text.replace(old, new))
        return True
    spans = sorted((span for edit in edits for span in edit.spans), key=lambda span: -span[1])
    for file, first, last, new in spans:
        text = read(f'{folder}/{file}')
        write(f'{folder}/{file}', text[:first] + new + text[last:])
    return True


def write(path, text):
    with open(path, 'w', encoding='utf-8') as file:
        file.write(text)


def attempt(crate, edits, only):
    with tempfile.TemporaryDirectory() as room:
        folder = f'{room}/{crate}'
        if not changed(crate, edits, folder):
            return None
        return check(crate, folder, only)


def alone(crate, edit):
    """What the check says of one wrong body: that it is refused, or why it is not."""
    for only in dict.fromkeys((edit.full, '::'.join(edit.name.split('.')[:-1]))):
        tried = only and attempt(crate, [edit], [only])
        if tried and is_refused(said_of(tried[1], only)):
            return 'refused'
    tried = attempt(crate, [edit], [])
    if tried is None:
        return 'a text that it changes is not there once'
    status, functions, said = tried
    if status == 0:
        return 'NOT REFUSED'
    if any(is_refused(of_function) for of_function in functions.values()):
        return 'refused'
    return 'did not reach the prover: ' + ' '.join(re.findall(r'.*error.*', said)[:2])


def type_of(head):
    """The type or the trait that an impl is about, by its head; the words of both where it has two."""
    if not head:
        return frozenset()
    plain = re.sub(r'<[^<>]*>', '', re.sub(r'<[^<>]*>', '', head))
    return frozenset(re.findall(r'[A-Z]\w*', plain))


def body_of(text):
    """The text of a function behind its contract: comments and clauses name no function that it calls."""
    lines = text.split('\n')
    start = next((at for at, line in enumerate(lines) if line.strip() == '{'), 0)
    return '\n'.join(re.sub(r'//.*', '', line) for line in lines[start:])


def calls_of(functions, crate):
    """The functions that each function leads to by calls, by the words of its body: rather too many than too few."""
    every, bodies = collections.defaultdict(list), {}
    for file, found in functions.items():
        text = read(f'{TOP}/crates/{crate}/{file}')
        for first, last, name, head in found:
            every[name].append((file, name, head))
            bodies[file, name, head] = body_of(text[first:last])
    calls = {}
    for caller, body in bodies.items():
        own, called = type_of(caller[2]), set()
        for before, name in re.findall(r'(\w+::|\bself\.|\.|)(\w+)', body):
            before = before.rstrip(':')
            for other in every.get(name, ()):
                of = type_of(other[2])
                if before == 'Self' or before == 'self.':
                    fits = of & own or not own
                elif before == '.':
                    fits = of
                elif before[:1].isupper():
                    fits = before in of
                else:
                    fits = not of
                if fits:
                    called.add(other)
        calls[caller] = called - {caller}
    reached = {}
    for caller in calls:
        seen, left = set(), [caller]
        while left:
            for called in calls[left.pop()] - seen:
                seen.add(called)
                left.append(called)
        reached[caller] = seen
    return reached


def groups_of(edits, reached):
    """The wrong bodies that go together, as few groups as come by taking each into the first that it fits."""
    groups = []
    for edit in edits:
        for group in groups:
            if len(group) < MOST and all(
                    edit.function != other.function and edit.function not in reached[other.function]
                    and other.function not in reached[edit.function] and not edit.overlaps(other) for other in group):
                group.append(edit)
                break
        else:
            groups.append([edit])
    return groups


def kept_of(crate, edits):
    """The file with what was refused of a crate as it is, and which of its wrong bodies it has."""
    path = f'{KEPT}/{crate}-{digest_of(crate)[:16]}'
    lines = read(path).split('\n') if os.path.exists(path) else []
    return path, {edit.name for edit in edits if f'{edit.name} {edit.digest}' in lines}


def try_crate(crate, rank, pool):
    """Tries all wrong bodies of a crate; what became of each."""
    folder = f'{TOP}/crates/{crate}'
    functions = {os.path.relpath(path, folder): functions_of(path) for path in glob.glob(f'{folder}/src/**/*.rt', recursive=True)}
    edits = [Edit(path, crate, functions) for path in sorted(glob.glob(f'{TOP}/tests/wrong_bodies/{crate}/*.edit'))]
    ends = collections.Counter(full_name(crate, file, name, head) for file, found in functions.items() for _, _, name, head in found)
    for edit in edits:
        if ends[edit.full] > 1:
            edit.full = None
    path, known = kept_of(crate, edits)
    told = {name: 'refused' for name in known}

    def tell(edit, said):
        told[edit.name] = said
        if said == 'refused':
            os.makedirs(KEPT, exist_ok=True)
            with open(path, 'a', encoding='utf-8') as file:
                file.write(f'{edit.name} {edit.digest}\n')

    # First as if no function led to another: what is not tried then, because of another's wrong body, comes again without that.
    for reached in (collections.defaultdict(set), calls_of(functions, crate)):
        groups = groups_of([edit for edit in edits if edit.full and edit.name not in told], reached)
        for group, found in pool.run(rank, lambda group: attempt(crate, group, [edit.full for edit in group])[1], groups):
            for edit in group:
                if is_refused(said_of(found, edit.full)):
                    tell(edit, 'refused')
    for edit, said in pool.run(rank, lambda edit: alone(crate, edit), [edit for edit in edits if edit.name not in told]):
        tell(edit, said)
    return {edit.name: told[edit.name] for edit in edits}


def commit():
    """The commit of this checkout, and whether its crates or wrong bodies are others."""
    git = ['git', '-C', TOP]
    head = subprocess.run(git + ['rev-parse', '--short', 'HEAD'], capture_output=True, text=True)
    if head.returncode:
        return 'no commit'
    paths = ['crates', 'crates.txt', ':(exclude)tests/wrong_bodies/tried', 'tests/wrong_bodies']
    status = subprocess.run(git + ['status', '--porcelain', '--'] + paths, capture_output=True, text=True).stdout
    return head.stdout.strip() + (' with changes' if status.strip() else '')


def write_row(crate, told, at):
    """Writes what became of a crate's wrong bodies; whether one was not refused."""
    refused = sum(1 for said in told.values() if said == 'refused')
    print(f'{crate}: {refused} of {len(told)} refused', flush=True)
    for name, said in told.items():
        if said != 'refused':
            print(f'    {name}: {said}', flush=True)
    path = f'{TOP}/tests/wrong_bodies/tried'
    rows = [row for row in read(path).split('\n') if row and not row.startswith(crate + ' ')]
    write(path, '\n'.join(sorted(rows + [f'{crate} {refused} of {len(told)} refused, {at}'])) + '\n')
    return refused < len(told)


def main():
    named = sys.argv[1:] or [os.path.basename(os.path.dirname(path)) for path in glob.glob(f'{TOP}/tests/wrong_bodies/*/')]
    crates = [crate for crate in USES if crate in named and os.path.isdir(f'{TOP}/tests/wrong_bodies/{crate}')]
    at, failed, pool = commit(), False, Pool(JOBS)
    with concurrent.futures.ThreadPoolExecutor(len(crates)) as keepers:
        waiting = {keepers.submit(try_crate, crate, rank, pool): crate for rank, crate in enumerate(crates)}
        for done in concurrent.futures.as_completed(waiting):
            failed = write_row(waiting[done], done.result(), at) or failed
    sys.exit(failed)


main()
