"""Runs the program and measures what it takes itself: its processor time, and the most memory that it had.

The kernel counts to a program's memory what the process had that started it, which is some 15 MB of Python or more. So `setsid` starts it,
which has less than any program and ends at once: the program becomes a child of this process, which asks for the children of its children.
"""
import ctypes
import fcntl
import functools
import os
import shutil
import subprocess
import threading
from collections import namedtuple

# The request of `prctl` by which a process gets the children of its children that end, as in <linux/prctl.h>.
SET_CHILD_SUBREAPER = 36
PIPE_SIZE = 1 << 20
BLOCK = 1 << 18

# What a run took: the status, negative for a signal; how many lines it printed, the first and the last; what it said on standard error;
# seconds of the processor, and the bytes of memory that it had at most.
Run = namedtuple("Run", "status lines first last complaint seconds memory")

# A text that is made as it is read: its beginning, a round, and how often that comes.
Stream = namedtuple("Stream", "begin round count")


def can_measure():
    """Whether a program's own memory can be measured here."""
    try:
        return shutil.which("setsid") is not None and not ctypes.CDLL(None).prctl(SET_CHILD_SUBREAPER, 1, 0, 0, 0)
    except AttributeError:
        return False


def length(stream):
    """The bytes of a stream."""
    return len(stream.begin) + len(stream.round) * stream.count


def write(end, stream):
    """Writes a stream to the end of a pipe, and closes it."""
    each = max(1, BLOCK // max(1, len(stream.round)))
    block = stream.round * min(each, stream.count)
    pieces = [stream.begin] + [block] * (stream.count // each) + [stream.round * (stream.count % each)]
    try:
        for piece in pieces:
            left = memoryview(piece)
            while left:
                left = left[os.write(end, left) :]
    except BrokenPipeError:
        pass
    os.close(end)


def reap(launched):
    """Waits for all children; gives the status and the use of the one that was not launched."""
    found = None
    while True:
        try:
            number, status, used = os.wait4(-1, 0)
        except ChildProcessError:
            return found
        if number != launched:
            found = os.waitstatus_to_exitcode(status), used


def run(words, streams=(), patience=3600):
    """Runs the words of a command, and behind them the names of pipes with these streams; it is ended after these seconds of the processor."""
    return run_with(words, [functools.partial(write, stream=stream) for stream in streams], patience)


def run_with(words, makers, patience=3600):
    """The same, where each pipe has what a function writes to its end, which that closes."""
    ends, writers, names = [], [], []
    for maker in makers:
        out, into = os.pipe()
        try:
            fcntl.fcntl(into, fcntl.F_SETPIPE_SZ, PIPE_SIZE)
        except (AttributeError, OSError):
            pass
        ends.append(out)
        names.append("/dev/fd/%d" % out)
        writers.append(threading.Thread(target=maker, args=(into,)))
    launched = subprocess.Popen(
        ["sh", "-c", 'ulimit -c 0; ulimit -t "$0"; exec setsid -f "$@"', str(patience), *words, *names],
        pass_fds=ends, stdin=subprocess.DEVNULL, stdout=subprocess.PIPE, stderr=subprocess.PIPE,
    )
    for end in ends:
        os.close(end)
    for writer in writers:
        writer.start()
    lines, first, last = 0, b"", b""
    for line in launched.stdout:
        lines, first, last = lines + 1, first or line, line
    complaint = launched.stderr.read()
    status, used = reap(launched.pid)
    for writer in writers:
        writer.join()
    texts = [text.decode("ascii", "replace").rstrip("\n") for text in (first, last, complaint)]
    return Run(status, lines, *texts, used.ru_utime + used.ru_stime, used.ru_maxrss * 1024)
