#!/usr/bin/env python3
"""Runs the printing program against outputs and inputs that fail: what arrives is the whole table, with nothing on standard error, or a front part of it, with the message there. Then `surveys` against an input that fails: it prints nothing. Both with little memory, of which they ask for none.

    examples/faults.py crates/print_table/out/print_table target/libmeterplan.so target/examples/faulty.so crates/surveys/out/surveys

The whole table is that of the C interface, row by row; what `surveys` prints is its stored output. Prints a line for each case, and stops with status 1 at the first in which something else is found.
"""
import contextlib
import ctypes
import os
import resource
import signal
import subprocess
import sys
import tempfile
import time

PROGRAM, LIBRARY, FAULTY, SURVEYS = sys.argv[1:]
INCOMPLETE = b"print_table: output failed: incomplete table\n"
NO_INPUT = b"print_table: input failed: no table\n"
PIPE = 65536

# For what a program writes to outside its stack: neither asks for any, and the C library has some 100 KB of its own.
LITTLE_MEMORY = 170 * 1024


def large_input():
    """48 meters round a circle, each linked with the three after it, as a tree with d = 1: 8,160 bits."""
    links = sorted({tuple(sorted((v, (v + step) % 48))) for v in range(48) for step in (1, 2, 3)})
    records = [bytes((u + 1, v + 1)) + (60000).to_bytes(2, "little") for u, v in links]
    records += [bytes(4)] * (256 - len(links))
    following = [0 if k in (len(links), 256) else k + 1 for k in range(1, 257)]
    firsts = [1, len(links) + 1, len(links)]
    head = bytes((48, 0)) + b"".join(n.to_bytes(2, "little") for n in firsts) + bytes(8)
    return head + b"".join(r + k.to_bytes(2, "little") + bytes(2) for r, k in zip(records, following)) + bytes((3, 1))


INPUT = large_input()


def start(out, source=subprocess.PIPE, closed=None, ignored=None, most=None, memory=None, program=PROGRAM, **settings):
    """The program: with another input than the large one, with a descriptor closed, a signal ignored, a limit on the size of files or on memory, or settings of the environment; or another program."""
    def prepare():
        if ignored is not None:
            signal.signal(ignored, signal.SIG_IGN)
        if most is not None:
            resource.setrlimit(resource.RLIMIT_FSIZE, (most, most))
        if memory is not None:
            resource.setrlimit(resource.RLIMIT_DATA, (memory, memory))
        if closed is not None:
            os.close(closed)

    child = subprocess.Popen([program], stdin=source, stdout=out, stderr=subprocess.PIPE, env=settings, preexec_fn=prepare)
    if source == subprocess.PIPE and closed != 0:
        child.stdin.write(INPUT)
        child.stdin.close()
    return child


def end(child):
    """What the program says on standard error, and how it ends."""
    with child.stderr as errors:
        said = errors.read()
    return said, child.wait()


def start_to_pipe(blocking=True, ignored=None):
    """The program with a pipe for output, and the end to read."""
    front, back = os.pipe()
    os.set_blocking(back, blocking)
    child = start(back, ignored=ignored)
    os.close(back)
    return front, child


def read_all(front, pause=0.0):
    """All that arrives, with a pause before each read."""
    parts = [None]
    while parts[-1] != b"":
        time.sleep(pause)
        parts.append(os.read(front, PIPE))
    os.close(front)
    return b"".join(parts[1:])


def to_pipe(blocking=True, pause=0.0):
    front, child = start_to_pipe(blocking)
    arrived = read_all(front, pause)
    return arrived, *end(child)


def to_closed_pipe(ignored=None):
    """The reader goes after its first read."""
    front, child = start_to_pipe(ignored=ignored)
    arrived = os.read(front, PIPE)
    os.close(front)
    return arrived, *end(child)


def to_stopped_reader():
    """The reader keeps the pipe and reads nothing before the program has ended."""
    front, child = start_to_pipe(blocking=False)
    ended = end(child)
    return read_all(front), *ended


def to_file(feed=None, **how):
    """With a file for output; `feed` acts as the other end of the input."""
    with tempfile.TemporaryFile() as out:
        child = start(out, **how)
        said, status = feed(child) if feed else end(child)
        out.seek(0)
        return out.read(), said, status


def to_device(path):
    with open(path, "wb") as out:
        return b"", *end(start(out))


def from_pipe(*parts):
    """With a non-blocking pipe for input, into which the parts go one after another; where the last is None, it stays open."""
    front, back = os.pipe()
    os.set_blocking(front, False)

    def feed(child):
        os.close(front)
        for part in parts:
            if part is None:
                ended = end(child)
                os.close(back)
                return ended
            time.sleep(0.5)
            with contextlib.suppress(BrokenPipeError):
                os.write(back, part)
        os.close(back)
        return end(child)

    return to_file(feed, source=front)


def from_directory():
    directory = os.open(".", os.O_RDONLY)
    found = to_file(source=directory)
    os.close(directory)
    return found


class Ask(ctypes.Structure):
    _fields_ = [("kind", ctypes.c_uint64), ("parameter", ctypes.c_uint64), ("margin", ctypes.c_uint64)]


class Number(ctypes.Structure):
    _fields_ = [("refusal", ctypes.c_uint64), ("value", ctypes.c_int64)]


def call(name, *more, gives=Number):
    """A call of the C interface with the image, kind and parameter of the input, and margin 0."""
    function = ctypes.CDLL(LIBRARY)["meterplan_" + name]
    function.restype = gives
    answer = function(INPUT[:2064], ctypes.c_size_t(2064), Ask(*INPUT[2064:]), *more)
    if getattr(answer, "refusal", answer) != 0:
        sys.exit(f"{name} refused: {answer}")
    return answer


def whole_table():
    """The lines that the program is to print, with the numbers of the C interface."""
    bits = call("bits").value
    row = (ctypes.c_int64 * bits)()
    lines = [f"Q {bits} {call('constant').value}"]
    for i in range(bits):
        call("row", ctypes.c_uint64(i), row, ctypes.c_size_t(bits), gives=ctypes.c_uint64)
        lines += [f"{i} {i + k} {z}" for k, z in enumerate(row[:bits - i]) if z]
    return "\n".join(lines).encode() + b"\n"


def finding(table, arrived, said, status):
    """What the outcome of a run is: 'whole', 'message', 'no input', the signal by which the system ended the program, or what is wrong."""
    if arrived == table and (said, status) == (b"", 0):
        return "whole"
    if not table.startswith(arrived):
        return f"something else, status {status}, said {said}"
    if (said, status) == (INCOMPLETE, 1):
        return "message"
    if (arrived, said, status) == (b"", NO_INPUT, 1):
        return "no input"
    return signal.Signals(-status).name if status < 0 else f"incomplete, status {status}, said {said}"


def main():
    table = whole_table()
    cases = [
        ("to a pipe", "whole", to_pipe),
        ("to a full device", "message", lambda: to_device("/dev/full")),
        ("to a closed output", "message", lambda: to_file(closed=1)),
        ("to a pipe closed by its reader, SIGPIPE ignored", "message", lambda: to_closed_pipe(signal.SIGPIPE)),
        ("to a pipe closed by its reader", "message", to_closed_pipe),
        ("to a file of limited size, SIGXFSZ ignored", "message", lambda: to_file(most=1000001, ignored=signal.SIGXFSZ)),
        ("to a file of limited size", "SIGXFSZ", lambda: to_file(most=1000001)),
        ("to a non-blocking pipe with a slow reader", "whole", lambda: to_pipe(blocking=False, pause=0.002)),
        ("to a non-blocking pipe whose reader stops", "message", to_stopped_reader),
        ("with interrupted and partial writes", "whole", lambda: to_file(LD_PRELOAD=FAULTY)),
        ("with a failure told when it is synchronized", "message", lambda: to_file(LD_PRELOAD=FAULTY, FAULTY_SYNC="1")),
        ("from a non-blocking pipe with a slow writer", "whole", lambda: from_pipe(INPUT[:1000], INPUT[1000:])),
        ("from a non-blocking pipe whose writer stops", "no input", lambda: from_pipe(INPUT[:1000], None)),
        ("from a directory", "no input", from_directory),
        ("from a closed input", "no input", lambda: to_file(closed=0)),
        ("with little memory", "whole", lambda: to_file(memory=LITTLE_MEMORY)),
    ]
    for name, expected, run in cases:
        arrived, said, status = run()
        found = finding(table, arrived, said, status)
        if found != expected:
            sys.exit(f"print_table {name}: {found}, where {expected} was expected; {len(arrived)} of {len(table)} bytes arrived")
        print(f"print_table {name}: {found}, {len(arrived)} of {len(table)} bytes: as expected")
    try_surveys()


def try_surveys():
    """It reads its whole input before it carries out a line, and allocates nothing."""
    with open("crates/surveys/stdin", "rb") as file:
        lines = file.read()
    with open("crates/surveys/stdout", "rb") as file:
        answers = file.read()
    cases = [
        ("from a non-blocking pipe whose writer stops", b"", 1, lambda: from_stopped_pipe(lines)),
        ("with little memory", answers, 0, lambda: from_lines(memory=LITTLE_MEMORY)),
    ]
    for name, expected, wanted, run in cases:
        arrived, said, status = run()
        if (arrived, status) != (expected, wanted):
            sys.exit(f"surveys {name}: status {status}, said {said}; {len(arrived)} of {len(expected)} bytes arrived")
        print(f"surveys {name}: status {status}, {len(arrived)} of {len(expected)} bytes: as expected")


def from_stopped_pipe(lines):
    """All lines can be read at once, and the next read fails: the pipe stays open."""
    front, back = os.pipe()
    os.set_blocking(front, False)
    os.write(back, lines)
    found = to_file(source=front, program=SURVEYS)
    os.close(front)
    os.close(back)
    return found


def from_lines(**how):
    with open("crates/surveys/stdin", "rb") as file:
        return to_file(source=file, program=SURVEYS, **how)


main()
