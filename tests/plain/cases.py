"""Cases: what the program is given and what it is to write, as the files of tests/cases/ tell it. Their forms are listed at the
head of tests/run_cases.
"""
import os
import re
import shlex

from .program import TOP

LINE = re.compile(r"(?:([0-9]+) \* )?([|<>])(?: (.*))?", re.S)
ESCAPE = re.compile(rb"\\(?:x([0-9A-Fa-f]{2})|(.))", re.S)
LF_LINE = re.compile(rb"[^\n]*\n|[^\n]+")
ESCAPES = {b"t": b"\t", b"r": b"\r", b"n": b"\n", b"\\": b"\\"}


def unread_pipe():
    reader, writer = os.pipe()
    os.close(reader)
    return writer


# Calls that open what a run's input or output is to be.
SOURCES = {
    "input unreadable": lambda: os.open("/", os.O_RDONLY),
    "input endless": lambda: os.open("/dev/zero", os.O_RDONLY),
}
TARGETS = {
    "output full": lambda: os.open("/dev/full", os.O_WRONLY),
    "output closed": unread_pipe,
}


class Unreadable(Exception):
    """What is wrong with a case's file."""


class Run:
    """One call of the program: what it is given, and what is wanted of it."""

    def __init__(self, words):
        self.words = words
        self.turns = []  # pairs of `>` or `<` and bytes, in the case's order
        self.status = None
        self.seconds = 20
        self.is_paced = False
        self.source = None  # in place of the script
        self.target = None  # in place of a pipe that is read

    def bytes_behind(self, mark):
        return b"".join(data for its, data in self.turns if its == mark)


class Case:
    def __init__(self):
        self.files = {}
        self.folders = []
        self.runs = []


# Reading a case.


def escaped(match):
    code, letter = match.groups()
    if code:
        return bytes([int(code, 16)])
    if letter not in ESCAPES:
        raise Unreadable(f"there is no escape \\{letter.decode(errors='replace')}")
    return ESCAPES[letter]


def bytes_of(text):
    """The bytes that one line of a case stands for."""
    raw = text.encode()
    backslashes = len(raw) - len(raw.rstrip(b"\\"))
    if backslashes % 2:
        return ESCAPE.sub(escaped, raw[:-1])
    return ESCAPE.sub(escaped, raw) + b"\n"


def repeated(times, text):
    if times is None:
        return bytes_of(text)
    data = bytes_of(text)
    if b"{n}" not in data:
        return data * int(times)
    return b"".join(data.replace(b"{n}", b"%d" % n) for n in range(1, int(times) + 1))


def read_number(text):
    if not text.isdigit():
        raise Unreadable(f"no number: {text}")
    return int(text)


def bytes_of_file(path):
    with open(os.path.join(TOP, path), "rb") as file:
        return file.read()


def add_file(case, rest):
    """Adds a file, and returns its name where its lines follow."""
    name, _, source = rest.partition(" from ")
    if not name or name in case.files:
        raise Unreadable("a file has a name, and stands once")
    case.files[name] = bytes_of_file(source) if source else b""
    return None if source else name


def add_to_run(run, line):
    """Takes a line that says how a run goes."""
    word, _, rest = line.partition(" ")
    if line == "paced":
        run.is_paced = True
    elif line in SOURCES:
        run.source = SOURCES[line]
    elif line in TARGETS:
        run.target = TARGETS[line]
    elif word == "script" and rest.startswith("from "):
        run.turns.append((">", bytes_of_file(rest[len("from ") :])))
    elif word == "seconds":
        run.seconds = read_number(rest)
    elif word == "ends" and run.status is None:
        run.status = read_number(rest)
    else:
        raise Unreadable(f"no line of a case: {line}")


def add_line(case, name, line):
    """Takes one line of a case, where `name` is the file that `|` lines belong to, and returns that file's name."""
    match = LINE.fullmatch(line)
    if match:
        times, mark, text = match.groups()
        data = repeated(times, text or "")
        if mark == "|" and name is not None:
            case.files[name] += data
        elif mark != "|" and case.runs:
            case.runs[-1].turns.append((mark, data))
        else:
            raise Unreadable(f"`{mark}` belongs to no {'file' if mark == '|' else 'run'}")
        return name
    word, _, rest = line.partition(" ")
    if word == "file":
        return add_file(case, rest)
    if word == "folder" and rest:
        case.folders.append(rest)
    elif word == "uvl":
        case.runs.append(Run(shlex.split(rest)))
    elif case.runs:
        add_to_run(case.runs[-1], line)
    else:
        raise Unreadable(f"no line of a case: {line}")
    return None


def check(run):
    if run.status is None:
        raise Unreadable("each line `uvl ..` is to have a line `ends N` below it")
    if run.source and run.bytes_behind(">"):
        raise Unreadable("a run with a line `input ..` has no script")
    if run.is_paced and (run.source or run.target):
        raise Unreadable("a paced run has its script and its output as ever")


def read_case(text):
    title, *lines = text.split("\n")
    case, name = Case(), None
    for number, line in enumerate(lines, 2):
        try:
            if line and not line.startswith("#"):
                name = add_line(case, name, line)
        except (Unreadable, OSError, ValueError) as wrong:
            raise Unreadable(f"line {number}: {wrong}") from None
    if not title or not case.runs:
        raise Unreadable("a case has a sentence in its first line, and below it at least one line `uvl ..`")
    for run in case.runs:
        check(run)
    return case


# Telling the differences.


def shown(data):
    """Bytes on one line, as a case writes them, cut to a length that can be read."""
    text = "".join(
        {9: "\\t", 10: "\\n", 13: "\\r", 92: "\\\\"}.get(b) or (chr(b) if 32 <= b < 127 else f"\\x{b:02X}") for b in data[:100]
    )
    return text + (f".. ({len(data)} bytes)" if len(data) > 100 else "")


def line_of(lines, number):
    """A line of an output, with a `\\` for the LF that is missing at its end."""
    if number >= len(lines):
        return "(the end)"
    line = lines[number]
    return shown(line[:-1]) if line.endswith(b"\n") else shown(line) + "\\"


def difference_of(what, wanted, came):
    if wanted == came:
        return []
    ours, theirs = (LF_LINE.findall(data) for data in (wanted, came))
    first = next((i for i, (one, other) in enumerate(zip(ours, theirs)) if one != other), min(len(ours), len(theirs)))
    told = [f"{what} differs from line {first + 1} on ({len(wanted)} bytes were wanted, {len(came)} came):"]
    for number in range(first, min(first + 3, max(len(ours), len(theirs)))):
        told += [f"  wanted  {line_of(ours, number)}", f"  came    {line_of(theirs, number)}"]
    return told
