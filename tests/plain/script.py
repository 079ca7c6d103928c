"""The replies to a script, from docs/script.md alone, over a model of which each set with the root and one feature more is a
product.
"""
import re

ROOT, MANDATORY = "Car", "Body"
OPTIONAL = ["Radio", "Full Grain", "valid", "#", "é中", "or"]
FEATURES = [ROOT, MANDATORY, *OPTIONAL]
MOST_BYTES = 65536

WORD = re.compile(r'"([^"\r\n]+)"|([^ \t"\r\n]+)')
LINE = re.compile(r"[ \t]*(?:{0}(?:[ \t]+{0})*)?[ \t]*".format(r'(?:"[^"\r\n]+"|[^ \t"\r\n]+)'))


def model():
    """The text of the model."""
    members = "".join(f'\t\t\t"{name}"\n' for name in OPTIONAL)
    return f"features\n\t{ROOT}\n\t\tmandatory\n\t\t\t{MANDATORY}\n\t\toptional\n{members}"


# each product has the root and the mandatory feature, and each other feature may be there or not
WORDLESS = {"void": ["no"], "dead": [], "core": [ROOT, MANDATORY], "falseopt": []}


def answer(words):
    """The lines of the answer to a line's words, of which there is one at least."""
    command, names = words[0], words[1:]
    if command in WORDLESS:
        return ["refused wrong-arity"] if names else WORDLESS[command]
    if command != "valid":
        return ["refused unknown-command"]
    if not set(names) <= set(FEATURES):
        return ["refused unknown-feature"]
    return ["yes" if {ROOT, MANDATORY} <= set(names) else "no"]


def reply(line):
    """The reply to a line without its line end, or nothing."""
    if len(line) > MOST_BYTES:
        return "refused too-long\n.\n"
    try:
        text = line.decode("utf-8")
    except UnicodeDecodeError:
        return "refused bad-utf8\n.\n"
    if text.lstrip(" \t")[:1] in ("", "#"):
        return ""
    if not LINE.fullmatch(text):
        return "refused bad-name\n.\n"
    return "".join(f"{it}\n" for it in [*answer([quoted or plain for quoted, plain in WORD.findall(text)]), "."])


def replies(script):
    """The replies to all lines of a script."""
    lines = script.split(b"\n")
    if not lines[-1]:
        lines.pop()
    return "".join(reply(line[:-1] if line.endswith(b"\r") else line) for line in lines)


# ---- scripts made at random

WORDS = ['"Full Grain"', '"#"', "é中", '"é中"', "Wheel", '"valid"', '""', '"Car', 'Car"', '"Car"Body', "#", "Ca\rr", "\u00a0", "'"]
COMMANDS = ["valid", "valid", "valid", *WORDLESS, '"valid"', '"void"', '"core"', "#", "vali", "VOID", "false"]
SEPARATORS = [" ", " ", " ", "\t", "  \t", ""]
BAD_BYTES = [b"\xff", b"\xc0\x80", b"\xed\xa0\x80", b"\xe4\xb8", b"\xf4\x90\x80\x80"]


def random_line(random_):
    """A line without its line end: words of a command, some of them badly written."""
    words = [random_.choice(COMMANDS)]
    for _ in range(random_.choice([0, random_.randrange(6)])):
        words.append(random_.choice([ROOT, MANDATORY, "Radio", ROOT, MANDATORY, "or", random_.choice(WORDS)]))
    separators = [random_.choice(["", "", "", " ", "\t"])] + [random_.choice(SEPARATORS) for _ in words]
    line = "".join(separator + word for separator, word in zip(separators, words)).encode("utf-8")
    if random_.random() < 0.05:
        line = line[:random_.randrange(len(line) + 1)] + random_.choice(BAD_BYTES) + line
    if random_.random() < 0.01:
        line += random_.choice([b" ", b"#", b"\xff"]) * (MOST_BYTES + random_.randrange(-1, 3) - len(line))
    return line


def random_script(random_):
    """Lines with either line end, or with more than one CR, and now and then without a last one."""
    ends = [b"\n", b"\n", b"\n", b"\r\n", b"\r\r\n", b"\n\n", b" \n", b"\r"]
    script = b"".join(random_line(random_) + random_.choice(ends) for _ in range(random_.randrange(60)))
    return script[:-1] if random_.random() < 0.2 else script


def pieces(random_, script):
    """The script in pieces."""
    while script:
        size = random_.choice([1, 2, 7, 100, 5000, len(script)])
        yield script[:size]
        script = script[size:]
