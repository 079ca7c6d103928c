"""Sets of files made at random, most of them right or nearly right."""
import re
from collections import namedtuple

from .lexing import RESERVED
from .texts import with_bad_character

MOST_NAMES, MAIN = 10, "main.uvl"
TWICE = 0.2  # how often names are placed of which one is there already
PLACES = ["f{}.uvl", "f{}.uvl", "f{}.uvl", "sub/f{}.uvl", "sub/f{}.uvl", "big parts/v1.{}.uvl", "sub/in/f{}.uvl"]
OWN_NAMES = ["A", "B", "C", "D", "E", "a b", "é", "or", "x.A", "x.B", "y.A.B", "A.p"]
ALIASES = ["x", "x", "y", "y", "z", "x.y", "y.A", "q r", None]
KINDS = ["mandatory", "mandatory", "optional", "optional", "optional", "alternative", "or", "or", "[0..{}]", "[1..{}]", "[{}]",
         "[{}..*]", "[1..9]"]
BRACES = ["{{}}", "{{p 1}}", "{{p, q false}}", "{{p {{p 'x'}}, q [1, {{p}}]}}", "{{constraints []}}", "{{constraint {}}}",
          "{{constraints [{}, {}], p -0.5}}"]
IDENTIFIER = re.compile(r"[A-Za-z_é][A-Za-z_é0-9]*")


class Line:
    """A line of a file: what it is, how far it is indented, and its text."""

    def __init__(self, kind, depth, text):
        self.kind, self.depth, self.text = kind, depth, text


Import = namedtuple("Import", "qualifier draft")


class Draft:
    """A file that is being made: its lines, and what a file that imports it has to know."""

    def __init__(self, path, most_names):
        self.path, self.lines, self.most_names = path, [], most_names
        self.names, self.imports = [], []  # local names, the root's first, and the imports that aren't placed

    def folder(self):
        return self.path[:self.path.rfind("/") + 1]

    def add(self, kind, depth, text):
        self.lines.append(Line(kind, depth, text))

    def of_kind(self, *kinds):
        return [line for line in self.lines if line.kind in kinds]


# ---- names

def spelled(random_, name):
    """A name with quotes, where it needs them or where it likes to have them."""
    plain = IDENTIFIER.fullmatch(name) and name not in RESERVED
    return name if plain and random_.random() < 0.95 else f'"{name}"'


def split(random_, name):
    """A name as a reference of one part, or of one for each piece between its dots."""
    if random_.random() < 0.2:
        return spelled(random_, name)
    return ".".join(spelled(random_, piece) for piece in name.split("."))


# ---- rules

def random_rule(random_, names, depth=0):
    chance = random_.random()
    if depth > 3 or chance < 0.4:
        return split(random_, random_.choice(names))
    if chance < 0.55:
        return "!" + random_rule(random_, names, 4)
    inner = [random_rule(random_, names, depth + 1) for _ in range(2)]
    text = f" {random_.choice(['&', '|', '|', '=>', '=>', '<=>'])} ".join(inner)
    return f"({text})" if depth and random_.random() < 0.6 else text


def random_number_rule(random_, names):
    name = split(random_, random_.choice(names))
    return random_.choice([f"{name}.p > 1", "sum(p) <= 3", f"2 * {name}.p == 4 | {name}", f"{name} & {name}.p + 1 < 2.5"])


# ---- a file

def import_line(random_, importing, target, alias):
    """The text of a line that imports a file, and the qualifier."""
    parts = target.path[len(importing.folder()):-len(".uvl")].split("/")
    path = ".".join(spelled(random_, part) for part in parts)
    return (path, ".".join(parts)) if alias is None else (f"{path} as {split(random_, alias)}", alias)


def add_imports(random_, draft, drafts):
    """Lines of imports, of files that are made already and lie in the file's folder or below."""
    targets = [other for other in drafts if other.path.startswith(draft.folder())]
    qualifiers = set()
    draft.add("heading", 0, "imports")
    for _ in range(random_.choice([0, 1, 2, 2, 3, 3]) if targets else 0):
        target = random_.choice(targets[-2:] if random_.random() < 0.7 else targets)
        text, qualifier = import_line(random_, draft, target, random_.choice(ALIASES))
        if qualifier not in qualifiers:
            draft.add("import", 1, text)
            draft.imports.append(Import(qualifier, target))
            qualifiers.add(qualifier)
    if not qualifiers:
        draft.lines.pop()


def random_braces(random_, draft):
    if random_.random() < 0.75:
        return ""
    form = random_.choice(BRACES)
    return " " + form.format(*(random_rule(random_, draft.names) for _ in range(2)))


def bring(random_, draft, depth):
    """A feature line for the tree, or none: its kind, its text, and the names that it brings."""
    fitting = [it for it in draft.imports if len(draft.names) + len(it.draft.names) <= draft.most_names]
    if fitting and random_.random() < (0.7 if depth > 1 else 0.1):
        it = random_.choice(fitting)
        names = [f"{it.qualifier}.{name}" for name in it.draft.names]
        if not set(names) & set(draft.names) or random_.random() < TWICE:
            draft.imports.remove(it)
            return "placing", f"{split(random_, it.qualifier)}.{spelled(random_, it.draft.names[0])}", names
    name = random_.choice(OWN_NAMES)
    if len(draft.names) >= draft.most_names or name in draft.names and random_.random() >= TWICE / 10:
        return None
    return "feature", random_.choice(["", "", "", "Boolean "]) + spelled(random_, name), [name]


def add_feature(random_, draft, depth, room):
    """A line of the tree and some below it; answers whether there is one."""
    brought = bring(random_, draft, depth)
    if brought is None:
        return False
    kind, text, names = brought
    draft.names += names
    draft.add(kind, depth, text)
    if kind == "feature":
        draft.lines[-1].text += random_braces(random_, draft)
        for _ in range(random_.choice([0, 1, 1, 2] if depth > 1 else [1, 1, 2]) if room else 0):
            add_group(random_, draft, depth + 1, room - 1)
    return True


def add_group(random_, draft, depth, room):
    at, members = len(draft.lines), 0
    for _ in range(random_.choice([1, 1, 2, 2, 3])):
        members += add_feature(random_, draft, depth + 1, room)
    if members:
        kind = random_.choice(KINDS).format(random_.randrange(1, members + 1))
        draft.lines.insert(at, Line("group", depth, kind))


def add_rules(random_, draft):
    draft.add("heading", 0, "constraints")
    for _ in range(random_.choice([0, 0, 0, 1, 1, 2])):
        draft.add("rule", 1, random_rule(random_, draft.names))
    if random_.random() < 0.03:
        draft.add("rule", 1, random_number_rule(random_, draft.names))


def random_draft(random_, path, drafts):
    draft = Draft(path, MOST_NAMES if path == MAIN else random_.randrange(1, 7))
    if random_.random() < 0.2:
        draft.add("heading", 0, "namespace N")
    add_imports(random_, draft, drafts)
    draft.add("heading", 0, "features")
    while not draft.names:
        add_feature(random_, draft, 1, 2)
    add_rules(random_, draft)
    return draft


# ---- what is wrong: each takes the drafts, and changes one of them where it can

def some_line(random_, drafts, *kinds):
    lines = [(draft, line) for draft in drafts for line in draft.of_kind(*kinds)]
    return random_.choice(lines) if lines else (None, None)


def append_to(kind, texts):
    """A fault that appends one of some texts to a line."""
    def change(random_, drafts):
        _, line = some_line(random_, drafts, kind)
        if line:
            line.text += random_.choice(texts)
    return change


def replace_by(kind, texts):
    """A fault that puts one of some texts in place of a line's own."""
    def change(random_, drafts):
        _, line = some_line(random_, drafts, kind)
        if line:
            line.text = random_.choice(texts)
    return change


def repeat_line(kind):
    """A fault that has a line stand once more, behind itself; not that of the root."""
    def change(random_, drafts):
        draft, line = some_line(random_, drafts, kind)
        if line and (line.kind == "import" or line.depth > 1):
            draft.lines.insert(draft.lines.index(line) + 1, Line(line.kind, line.depth, line.text))
    return change


def import_back(random_, drafts):
    """An import of any file of the folder, perhaps of one that leads to this one."""
    draft, line = some_line(random_, drafts, "import")
    targets = [other for other in drafts if draft and other.path.startswith(draft.folder())]
    if targets:
        text, _ = import_line(random_, draft, random_.choice(targets), "w")
        draft.lines.insert(draft.lines.index(line) + random_.randrange(2), Line("import", 1, text))


def lose_features(random_, drafts):
    """A file without its features section."""
    draft = random_.choice(drafts)
    draft.lines = [it for it in draft.lines if it.kind not in ("feature", "placing", "group") and it.text != "features"]


def lose_file(random_, drafts):
    if len(drafts) > 1:
        drafts.remove(random_.choice(drafts[:-1]))


def indent_badly(random_, drafts):
    _, line = some_line(random_, drafts, "feature", "placing", "group", "rule", "import")
    if line:
        line.depth += random_.choice([-1, 1])


WRONGS = [
    append_to("feature", [" {p, p}", " {p 1, q {r, \"r\"}}", " {constraint Z}", " {p 1234567890123}", " {p [{r, r}]}"]),
    append_to("feature", [" {p [{r, r}]}", " {p [1, [{r 2, \"r\"}]], p}", " {constraints [Y, Z]}"]),
    append_to("placing", [" {p}", " {constraint A}", " {constraints [A, B]}", "x", ".A", " {}"]),
    append_to("rule", [" & Zz", " => x.Zz", " | \"Z z\" & Z", " / 2", " )", " & (A", " > len(p)", " & 'kg'", " @"]),
    append_to("import", [" as v", ".v", " as x"]),
    replace_by("import", ["\"..\".a", "\".\" as x", "\"a/b\"", "nowhere.f1 as x", "\"a\0b\""]),
    replace_by("group", ["[3..1]", "[2..0]", "[0]", "[2]", "[4..*]", "[1..]"]),
    replace_by("feature", ["Q", "Q {constraint Zz}", "Boolean A"]),
    replace_by("feature", ["Integer A", "A cardinality [1..2]", "x.A", "A.B", "String S"]),
    replace_by("placing", ["x.A", "y.B", "v.A", "\"x.A\"", "x.y.A"]),
    replace_by("rule", ["avg(p) > 1", "sum(p, A) > 1", "A => Zz", "floor(p) == 1"]),
    repeat_line("placing"), repeat_line("placing"), repeat_line("feature"), repeat_line("import"),
    import_back, import_back, lose_features, lose_file, indent_badly,
]


def written(random_, draft):
    """The bytes of a file, with tabs or spaces, and now and then a character more or less."""
    step = random_.choice(["\t", "\t", "    ", "  "])
    end = random_.choice(["\n", "\n", "\n", "\r\n"])
    text = "".join(step * line.depth + line.text + end for line in draft.lines)
    if random_.random() < 0.02:
        text = with_bad_character(random_, text)
    return text.encode("utf-8") + (b"\xff" if random_.random() < 0.005 else b"")


def random_set(random_):
    """The files of a set by their paths; the main file is at MAIN."""
    drafts = []
    for number in range(random_.randrange(6), 0, -1):
        drafts.append(random_draft(random_, random_.choice(PLACES).format(number), drafts))
    drafts.append(random_draft(random_, MAIN, drafts))
    for _ in range(random_.choice([0, 0, 0, 1, 1, 1, 1, 2])):
        random_.choice(WRONGS)(random_, drafts)
    return {draft.path: written(random_, draft) for draft in drafts}
