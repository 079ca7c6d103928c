"""What the tokens of a file say: its imports, its tree and its rules. The tokens have to be a file of the grammar."""
import sys
from collections import namedtuple
from decimal import Decimal

from .grammar import RULES

File = namedtuple("File", "imports root rules end")  # `root` is None where there is no features section
Import = namedtuple("Import", "place path qualifier")
Feature = namedtuple("Feature", "place parts attributes rules groups")
Group = namedtuple("Group", "place kind members")  # `kind` is a word, or a pair of bounds of which the upper may be None
Attribute = namedtuple("Attribute", "place key is_number lists")  # with the lists of attributes inside its value
Expression = namedtuple("Expression", "kind place parts")  # the parts are names, the size of a literal, or operands

LEAVES = frozenset(["reference", "number", "sum"])  # expressions without operands
BOOLEAN = frozenset(["!", "&", "|", "=>", "<=>"])  # the operators whose operands are truths
MOST_CALLS = 20000  # a rule nests as deep as the program takes it, and each bracket is some thirty calls here
sys.setrecursionlimit(max(MOST_CALLS, sys.getrecursionlimit()))


class Node:
    """A rule of the grammar as tokens spell it: its name, and its parts, which are nodes and tokens."""

    def __init__(self, kind, parts):
        self.kind, self.parts = kind, parts

    def all(self, kind):
        return [part for part in self.parts if part.kind == kind]

    def first(self, kind):
        return next(iter(self.all(kind)), None)


def match(form, tokens, at):
    """What a form of the grammar is from a token on: its nodes and tokens, and where it ends; or None."""
    word, inner = form
    if word == "token" or word == "name" and inner not in RULES:
        return ([tokens[at]], at + 1) if at < len(tokens) and inner in tokens[at].kinds else None
    if word == "name":
        found = match(RULES[inner], tokens, at)
        return found and ([Node(inner, found[0])], found[1])
    if word == "choice":
        return next(filter(None, (match(some, tokens, at) for some in inner)), None)
    if word == "sequence":
        return match_all(inner, tokens, at)
    return match_often(word, inner, tokens, at)


def match_all(forms, tokens, at):
    """One form behind the other."""
    parts = []
    for form in forms:
        found = match(form, tokens, at)
        if found is None:
            return None
        parts.extend(found[0])
        at = found[1]
    return parts, at


def match_often(word, form, tokens, at):
    """A form that may be left out or repeated, as often as it is there."""
    parts, times = [], 0
    found = match(form, tokens, at)
    while found:
        parts.extend(found[0])
        at, times = found[1], times + 1
        found = match(form, tokens, at) if word != "?" else None
    return None if word == "+" and not times else (parts, at)


# ---- names

def name_of(token):
    """A name's text: quotes make no difference."""
    return token.spelling.strip('"')


def names_of(reference):
    return tuple(name_of(token) for token in reference.all("name"))


def place_of(reference):
    return reference.parts[0].place


def dotted(names):
    return ".".join(names)


# ---- rules

def expression_of(node):
    """A rule, with the operators of one precedence grouped to the left."""
    if node.kind == "operand":
        return operand_of(node)
    if node.parts[0].kind == "!":
        return Expression("!", node.parts[0].place, (expression_of(node.parts[1]),))
    made = expression_of(node.parts[0])
    for symbol, right in zip(node.parts[1::2], node.parts[2::2]):
        made = Expression(symbol.kind, symbol.place, (made, expression_of(right)))
    return made


def operand_of(node):
    first = node.parts[0]
    if first.kind == "(":
        return expression_of(node.parts[1])
    if first.kind == "reference":
        return Expression("reference", place_of(first), names_of(first))
    if first.kind == "sum":
        return Expression("sum", first.place, ())
    return Expression("number", first.place, (Decimal(node.parts[-1].spelling),))


# ---- the tree

def lists_in(value):
    """The lists of attributes inside a value, those in vectors too."""
    lists = [attributes_of(value.all("plain"))] if value.parts[0].kind == "{" else []
    for inner in value.all("value"):
        lists += lists_in(inner)
    return lists


def attributes_of(plains):
    made = []
    for plain in plains:
        key, value = plain.first("name"), plain.first("value")
        is_number = bool(value) and value.parts[-1].kind == "number"
        made.append(Attribute(key.place, name_of(key), is_number, lists_in(value) if value else []))
    return made


def kind_of(kind):
    if kind.parts[0].kind != "[":
        return kind.parts[0].kind
    bounds = [None if token.kind == "*" else int(token.spelling) for token in kind.parts if token.kind in ("number", "*")]
    return bounds[0], bounds[-1]


def group_of(node):
    kind = node.first("kind")
    return Group(kind.parts[0].place, kind_of(kind), [feature_of(member) for member in node.all("feature")])


def feature_of(node):
    reference, braces = node.first("reference"), node.first("braces")
    entries = braces.all("entry") if braces else []
    attributes = attributes_of([entry.first("plain") for entry in entries if entry.first("plain")])
    rules = [expression_of(rule) for entry in entries for rule in entry.all("expression")]
    return Feature(place_of(reference), names_of(reference), attributes, rules, [group_of(it) for it in node.all("group")])


# ---- the file

def imports_of(node):
    """The lines of `imports`, each a reference and perhaps another behind `as`."""
    made, line = [], []
    for part in node.parts if node else []:
        if part.kind == "reference":
            line.append(part)
        elif part.kind == "Newline" and line:
            made.append(Import(place_of(line[0]), names_of(line[0]), dotted(names_of(line[-1]))))
            line = []
    return made


def file_of(tokens):
    """What the tokens of a file say."""
    (node,), _ = match(("name", "file"), tokens, 0)
    features, constraints = node.first("features"), node.first("constraints")
    root = feature_of(features.first("feature")) if features else None
    rules = [expression_of(rule) for rule in constraints.all("expression")] if constraints else []
    return File(imports_of(node.first("imports")), root, rules, tokens[-1].place)


def features_of(root):
    """A feature of a file or of a placed tree, and all below it, in document order."""
    yield root
    for group in root.groups:
        for member in group.members:
            yield from features_of(member)


def all_rules(file):
    """A file's own rules: first those in braces, in document order."""
    in_braces = [rule for feature in features_of(file.root) for rule in feature.rules] if file.root else []
    return in_braces + file.rules


def nodes_of(rule):
    """The nodes of a rule, each with whether it stands in a number position; in no order."""
    left = [(rule, False)]
    while left:
        node, is_number = left.pop()
        yield node, is_number
        if node.kind not in LEAVES:
            left += [(part, node.kind not in BOOLEAN) for part in node.parts]
