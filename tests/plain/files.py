"""Loading a set of files: the main file, the files that it imports, and so on; or the first fault of one of them."""
from functools import lru_cache

from .faults import check_tokens
from .lexing import Fault, tokens_of
from .syntax import file_of

MOST_BYTES, MOST_BYTES_OF_A_SET, MOST_FILES, MOST_DEPTH = 8388608, 16777216, 256, 16
FRONT = (1, 1)


class FileFault(Exception):
    """A fault by its number, at a place of a file."""

    def __init__(self, path, number, place):
        super().__init__(path, number, place)
        self.path, self.number, self.place = path, number, place


class Loaded:
    """A file of the set, with the loaded files that its lines of `imports` name."""

    def __init__(self, path, file, targets):
        self.path, self.file, self.targets = path, file, targets


@lru_cache(maxsize=64)
def reading(text):
    """What a text says. A Fault says why it isn't a file."""
    tokens = tokens_of(text)
    check_tokens(tokens)
    return file_of(tokens)


def named_path(path, line):
    """The path of the file that a line of `imports` names."""
    return path[:path.rfind("/") + 1] + "/".join(line.path) + ".uvl"


def is_bad_name(line, earlier):
    bad_part = any(part in (".", "..") or "/" in part or "\0" in part for part in line.path)
    return bad_part or line.qualifier in [other.qualifier for other in earlier]


class Loading:
    """What is known while files are loaded. `contents` has the bytes at each path at which there is a file."""

    def __init__(self, contents):
        self.contents, self.fetched = contents, 0
        self.being_loaded, self.loaded = [], {}

    def text_of(self, path):
        data = self.contents.get(path)
        if data is None:
            raise FileFault(path, 1, FRONT)
        self.fetched += len(data)
        if len(data) > MOST_BYTES or self.fetched > MOST_BYTES_OF_A_SET:
            raise FileFault(path, 2, FRONT)
        try:
            return data.decode("utf-8")
        except UnicodeDecodeError:
            raise FileFault(path, 3, FRONT) from None

    def read(self, path):
        """What the file at a path says."""
        text = self.text_of(path)
        try:
            return reading(text)
        except Fault as fault:
            raise FileFault(path, fault.number, fault.place) from None

    def faults_of_import(self, line, earlier, target, depth):
        """The faults of a line of `imports`, in the order in which they are asked for."""
        if is_bad_name(line, earlier):
            yield 29
        if target in self.being_loaded:
            yield 20
        if depth == MOST_DEPTH:
            yield 21
        if target not in self.loaded and len(self.loaded) + len(self.being_loaded) == MOST_FILES:
            yield 26

    def load(self, path, depth):
        """Loads a file, and answers it."""
        file, targets = self.read(path), []
        self.being_loaded.append(path)
        for number, line in enumerate(file.imports):
            target = named_path(path, line)
            for fault in self.faults_of_import(line, file.imports[:number], target, depth):
                raise FileFault(path, fault, line.place)
            if target not in self.loaded:
                self.load(target, depth + 1)
            targets.append(self.loaded[target])
        self.being_loaded.pop()
        self.loaded[path] = Loaded(path, file, targets)


def load(contents, main):
    """The files of a set in the order in which their loading ended, the main file last. A FileFault says what is wrong."""
    loading = Loading(contents)
    loading.load(main, 0)
    return list(loading.loaded.values())
