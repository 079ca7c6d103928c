"""From a text to its tokens, or to the place at which it can't be read on."""
import re

RESERVED = frozenset(
    "namespace include imports as features constraints constraint mandatory optional alternative or cardinality sum avg "
    "len floor ceil true false Boolean String Integer Real".split())
SYMBOLS = "( ) [ ] { } , . .. ! & | => <=> == != < <= > >= + - * /".split()
CLOSES = {")": "(", "]": "[", "}": "{"}
LAYOUT_TOKENS = frozenset(["Newline", "Indent", "Dedent"])

NUMBER = re.compile(r"([0-9]*)\.([0-9]+)|([0-9]+)")
QUOTED_NAME = re.compile(r'"[^"\r\n]+"')
TEXT = re.compile(r"'[^'\r\n]*'")
COMMENT = re.compile(r"//(?:[^\r\n]|\r(?!\n))*|/\*.*?\*/", re.S)
LINE_BREAK = re.compile(r"\r?\n")


class Fault(Exception):
    """A fault of a model, by its number, at a place."""

    def __init__(self, number, place):
        super().__init__(number, place)
        self.number, self.place = number, place


class Token:
    """A token. `kinds` are all names under which the grammar may ask for it: a word is itself and a `word`."""

    def __init__(self, kind, place, kinds=(), spelling=""):
        self.kind, self.place, self.spelling = kind, place, spelling
        self.kinds = frozenset([kind, *kinds])


def begins_identifier(character):
    return character == "_" or character.isidentifier()


def identifier_at(text, at):
    """The identifier that begins there, or an empty text."""
    end = at
    while end < len(text) and (("a" + text[end]).isidentifier() or text[end] in "#%?") and (
            end > at or begins_identifier(text[end])):
        end += 1
    return text[at:end]


def symbol_at(text, at):
    """The longest symbol that begins there, or an empty text."""
    if text.startswith(("//", "/*"), at):
        return ""
    return max((symbol for symbol in SYMBOLS if text.startswith(symbol, at)), key=len, default="")


def token_at(text, at, place):
    """The token that begins there, with its faults; or none. Of all that begin there it is the longest."""
    found = []
    name = identifier_at(text, at)
    if name:
        found.append(Token(name, place, ["word"], name) if name in RESERVED else Token("name", place, [], name))
    for form, kind in ((QUOTED_NAME, "name"), (TEXT, "text")):
        match = form.match(text, at)
        if match:
            found.append(Token(kind, place, [], match.group()))
    match = NUMBER.match(text, at)
    if match:
        found.append(Token("number", place, [] if "." in match.group() else ["whole"], match.group()))
    symbol = symbol_at(text, at)
    if symbol:
        found.append(Token(symbol, place, [], symbol))
    return max(found, key=lambda token: len(token.spelling), default=None)


def is_too_wide(token):
    whole, _, decimals = token.spelling.partition(".")
    return token.kind == "number" and (len(whole) > 12 or len(decimals) > 6)


class Reader:
    """What is kept between the pieces of a text."""

    def __init__(self, text):
        self.text, self.tokens, self.open_indentations, self.brackets = text, [], [0], []
        self.line, self.column, self.indentation, self.in_line = 1, 1, 0, False

    def place(self):
        return self.line, self.column

    def add_layout(self, kind, place):
        self.tokens.append(Token(kind, place))

    def end_line(self):
        """A line ends here, outside brackets, if it has a token."""
        if self.in_line and not self.brackets:
            self.add_layout("Newline", self.place())
            self.in_line = False

    def read_break(self):
        self.end_line()
        self.line, self.column, self.indentation = self.line + 1, 1, 0

    def read_blank(self, character, in_comment):
        to_tab = character == "\t" and not in_comment
        self.indentation = (self.indentation // 8 + 1) * 8 if to_tab else self.indentation + 1
        self.column += 1

    def read_comment(self, comment):
        """Each character is a space, and a line break stays one."""
        at = 0
        while at < len(comment):
            match = LINE_BREAK.match(comment, at)
            if match:
                self.read_break()
            else:
                self.read_blank(comment[at], True)
            at = match.end() if match else at + 1

    def lay_out(self, place):
        """The layout tokens in front of a token, where it is the first of its line."""
        if self.in_line or self.brackets:
            return
        self.in_line = True
        if self.indentation > self.open_indentations[-1]:
            self.open_indentations.append(self.indentation)
            self.add_layout("Indent", place)
        while self.indentation < self.open_indentations[-1]:
            self.open_indentations.pop()
            self.add_layout("Dedent", place)
        if self.indentation != self.open_indentations[-1]:
            raise Fault(5, place)

    def read_token(self, token):
        place = self.place()
        self.lay_out(place)
        if token.kind in CLOSES and (not self.brackets or self.brackets.pop() != CLOSES[token.kind]):
            raise Fault(6, place)
        if is_too_wide(token):
            raise Fault(7, place)
        if token.kind in CLOSES.values():
            self.brackets.append(token.kind)
        self.tokens.append(token)
        self.column += len(token.spelling)

    def read_piece(self, at):
        """Reads the piece that begins there; answers where the next one does."""
        text = self.text
        match = LINE_BREAK.match(text, at)
        if match:
            self.read_break()
            return match.end()
        if text[at] in " \t":
            self.read_blank(text[at], False)
            return at + 1
        match = COMMENT.match(text, at)
        if match:
            self.read_comment(match.group())
            return match.end()
        token = token_at(text, at, self.place())
        if token:
            self.read_token(token)
            return at + len(token.spelling)
        is_open = text.startswith(("'", "/*"), at) or text[at] == '"' and not text.startswith('""', at)
        raise Fault(6 if is_open else 4, self.place())

    def read(self):
        at = 1 if self.text.startswith("\ufeff") else 0
        while at < len(self.text):
            at = self.read_piece(at)
        if self.brackets:
            raise Fault(6, self.place())
        self.end_line()
        for _ in self.open_indentations[1:]:
            self.add_layout("Dedent", self.place())
        self.add_layout("Finish", self.place())
        return self.tokens


def tokens_of(text):
    """The tokens of a text. A Fault says where it can't be read on."""
    return Reader(text).read()
