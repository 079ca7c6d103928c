"""Texts made at random: of the grammar's forms, laid out as one likes, and then with a few faults put in."""
from itertools import islice

from .grammar import RULES
from .lexing import RESERVED, SYMBOLS

NAMES = ["A", "B", "C", "Dx", "_x", "é", "中#%", "p?", '"a b"', '"or"', '"A"', "sum1", '"//"']
TEXTS = ["''", "'kg'", "'a \"b\" /*'"]
WHOLES = ["0", "1", "2", "007", "123456789012"]
NUMBERS = ["0.5", ".25", "3.", "12.000001", "1.0000001", "1234567890123"]
COMMENTS = ["/**/", "/* a\tb */", "/*\n*/", "// c\n", "//\r\n", "/* é\r\n  */"]
LAYOUT = ["Newline", "Indent", "Dedent"]
TERMINALS = [*sorted(RESERVED), *SYMBOLS, *LAYOUT, "name", "name", "number", "whole", "text"]
REFUSED = ["String", "Integer", "Real", "cardinality", "avg", "len", "floor", "ceil", "/", "text", ","]
CHARACTERS = "\"'/*\r\n\t .#%?=<>!&|{}[](),-+0129aA_é中·\u0301$@;\ufeff"
MOST_NESTED, MOST_TOKENS = 40, 150


def spelled(random_, form, nested=0):
    """The tokens of a form, by their kinds, with parts left out and repeated at random."""
    word, inner = form
    goes_on = nested < MOST_NESTED
    if word == "token" or word == "name" and inner not in RULES:
        yield inner
    elif word == "name":
        yield from spelled(random_, RULES[inner], nested + 1)
    elif word == "choice":
        yield from spelled(random_, random_.choice(inner) if goes_on else inner[-1], nested)
    elif word == "sequence":
        for part in inner:
            yield from spelled(random_, part, nested)
    else:
        times = 1 if word == "+" else int(goes_on and random_.random() < 0.5)
        while word != "?" and times and goes_on and times < 4 and random_.random() < 0.3:
            times += 1
        for _ in range(times):
            yield from spelled(random_, inner, nested)


def spelling(random_, kind):
    """A spelling of a token of this kind."""
    choices = {"name": NAMES, "text": TEXTS, "whole": WHOLES, "number": NUMBERS + WHOLES, "word": sorted(RESERVED)}
    return random_.choice(choices.get(kind, [kind]))


def with_fault(random_, kinds):
    """The list with a token more, less, twice, elsewhere or of another kind."""
    at = random_.randrange(len(kinds))
    some = random_.choice(random_.choice([TERMINALS, TERMINALS, REFUSED]))
    changed = random_.choice([[], [kinds[at]] * 2, [some], [some, kinds[at]]])
    if random_.random() < 0.2 and at + 1 < len(kinds):
        return kinds[:at] + [kinds[at + 1], kinds[at]] + kinds[at + 2:]
    return kinds[:at] + changed + kinds[at + 1:]


def laid_out(random_, kinds):
    """A text with these tokens, or nearly: what stands side by side may join."""
    indentation, text, begins, open_brackets = [""], [], True, 0
    for kind in kinds:
        if kind == "Indent":
            indentation.append(indentation[-1] + random_.choice(["\t", "\t", "  ", " "]))
        elif kind == "Dedent":
            indentation[1:] = indentation[1:-1]
        elif kind == "Newline":
            text.append(random_.choice(["\n", "\n", "\n", "\r\n", " \n\n", " // d\n"]))
            begins = True
        elif kind != "Finish":
            between = random_.choice([" ", " ", " ", "", "\t", random_.choice(COMMENTS)])
            if open_brackets and random_.random() < 0.1:
                between = "\n"
            text += [indentation[-1] if begins else between, spelling(random_, kind)]
            begins = False
            open_brackets = max(0, open_brackets + (kind in "([{") - (kind in ")]}"))
    return "".join(text)


def with_bad_character(random_, text):
    """The text with a character more, less or another."""
    at = random_.randrange(len(text) + 1)
    some = random_.choice(CHARACTERS)
    return text[:at] + random_.choice(["", some]) + text[at + random_.randrange(2):]


def random_text(random_):
    """A text that often is a file, or nearly one."""
    kinds = []
    while not 1 < len(kinds) <= MOST_TOKENS:
        kinds = list(islice(spelled(random_, ("name", "file")), MOST_TOKENS + 1))
    for _ in range(random_.choice([0, 0, 1, 1, 2])):
        kinds = with_fault(random_, kinds) or kinds
    text = laid_out(random_, kinds)
    for _ in range(random_.choice([0, 0, 0, 1, 2])):
        text = with_bad_character(random_, text)
    return text


# ---- texts at the limits

def chain(depth, inner=""):
    """A chain of features of this depth, each in a mandatory group, with a text behind the last one."""
    lines = ["features"]
    for number in range(1, depth + 1):
        lines.append("\t" * (2 * number - 1) + f"F{number}")
        if number < depth:
            lines.append("\t" * (2 * number) + "mandatory")
    return "\n".join(lines) + inner


def nest(random_, depth):
    """An operand with so many brackets and `!` around it; now and then a connective ends some `!`."""
    opening, closing = [], []
    for _ in range(depth):
        is_bracket = random_.random() < 0.6
        opening.append("(" if is_bracket else "!")
        closing.append(")" if is_bracket else "")
        if random_.random() < 0.1:
            opening.append(random_.choice(["B & ", "B => ", "!B | "]))
    return "".join(opening) + "A" + "".join(reversed(closing))


# operands with the numbers of their nodes
OPERANDS = {"A": 1, "(B)": 1, "!A": 2, "!(A | B)": 4, "A == 1": 3, "sum(a) < -2": 3, "1 - 2 > A.b": 5, "3 * -4 >= C.\"d\"": 5}


def large_rule(random_, nodes):
    """A rule of so many nodes."""
    parts, left = ["A"], nodes - 1
    while left:
        operand = random_.choice([some for some, size in OPERANDS.items() if size + 1 <= left and left - size - 1 != 1])
        parts += [random_.choice(["&", "|", "=>", "<=>"]), operand]
        left -= OPERANDS[operand] + 1
    return " ".join(parts)


def texts_at_limits(random_):
    """Texts at the limits of depth, nesting and size, a few on each side of each."""
    for depth in (63, 64, 65, 66):
        yield chain(depth, random_.choice(["\n", "", " {a 1}\n", " x\n", "\n" + "\t" * (2 * depth) + "or\n"]))
    for depth in (126, 127, 128, 129, 130):
        for _ in range(4):
            yield "constraints\n\t" + nest(random_, depth) + random_.choice(["", "\n", " A\n", ")\n"])
        yield "features\n\tA {b " + "[" * depth + "]" * depth + "}\n"
        yield "features\n\tA {constraint " + nest(random_, depth) + ", constraints [A, " + nest(random_, depth - 1) + "]}\n"
    for nodes in (8191, 8192, 8193, 8194):
        yield "constraints\n\tA\n\t" + large_rule(random_, nodes) + random_.choice(["\n", " B", " +\n", " == 1 == 2\n"])
        yield "features\n\tA {constraints [A, " + large_rule(random_, nodes) + ",\n\t A]}\n"
