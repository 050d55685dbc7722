"""What the program reports on a dialogue in the profile `wide`."""
import os
import subprocess
import sys
import tempfile


def lines_of(program, script, answers, options=()):
    """The lines of the report, with these options besides. A program in Python runs too."""
    with tempfile.TemporaryDirectory() as work:
        paths = [os.path.join(work, name) for name in ("script", "answers")]
        for path, text in zip(paths, (script, answers)):
            with open(path, "w", encoding="ascii") as file:
                file.write(text)
        words = [sys.executable] * program.endswith(".py") + [program, "--profile", "wide", "--print-success", "off", *options, *paths]
        run = subprocess.run(words, stdout=subprocess.PIPE, stderr=subprocess.STDOUT, check=False, timeout=1200)
    return run.stdout.decode("latin-1").splitlines()
