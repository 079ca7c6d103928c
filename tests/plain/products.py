"""Whether a set of features is a product, by recursion on the tree; and what is answered for a set of files."""
import itertools

from .faults import NAMES
from .files import FileFault
from .lexing import RESERVED, identifier_at
from .placing import model_of
from .script import WORD
from .syntax import dotted, features_of

FAULTS = {
    1: "Absent", 2: "TooLong", 3: "NotUtf8", 13: "DuplicateFeature", 14: "DuplicateAttribute", 15: "UnknownFeature",
    16: "UnknownAttribute", 18: "WrongSort", 19: "BadRange", 20: "ImportCycle", 21: "ImportDepth", 22: "PlacedTwice",
    23: "TooManyFeatures", 25: "NotLinear", 26: "TooManyFiles", 27: "FactorTooLarge", 28: "MissingFeatures", 29: "BadImportName",
    30: "BodyOnPlacedImport", 31: "TooManyRules", **NAMES,
}


def is_absent(tree, chosen):
    """Whether no feature of a tree is chosen."""
    return all(it.name not in chosen for it in features_of(tree))


def fits(tree, chosen):
    """Whether a tree whose feature is chosen allows the choice below it."""
    for group in tree.groups:
        if not group.low <= sum(1 for it in group.members if it.name in chosen) <= group.high:
            return False
        if not all(fits(it, chosen) if it.name in chosen else is_absent(it, chosen) for it in group.members):
            return False
    return True


def holds(rule, front, chosen):
    """Whether a rule without numbers holds, with a text in front of its names."""
    if rule.kind == "reference":
        return front + dotted(rule.parts) in chosen
    values = [holds(part, front, chosen) for part in rule.parts]
    if rule.kind == "!":
        return not values[0]
    left, right = values
    return {"&": left and right, "|": left or right, "=>": right or not left, "<=>": left == right}[rule.kind]


def is_product(model, chosen):
    return (model.tree.name in chosen and chosen <= set(model.names) and fits(model.tree, chosen)
            and all(holds(rule, front, chosen) for front, rule in model.rules()))


def sets_of(model):
    """All sets of a model's features."""
    for count in range(len(model.names) + 1):
        yield from map(set, itertools.combinations(model.names, count))


def open_members(tree):
    """Pairs of a feature and a member of a group of it that lets it leave one out, by the bounds of the group alone."""
    for parent in features_of(tree):
        for group in parent.groups:
            if group.low < len(group.members):
                yield from ((parent.name, member.name) for member in group.members)


def found(model, command, products):
    """The features that `dead`, `core` or `falseopt` asks for, in document order, by all products."""
    dead = [name for name in model.names if not any(name in it for it in products)]
    if command == "dead":
        return dead
    if command == "core":
        return [name for name in model.names if all(name in it for it in products)]
    kept = {name for parent, name in open_members(model.tree) if all(name in it for it in products if parent in it)}
    return [name for name in model.names if name in kept and name not in dead]


def written(name):
    """A name as UVL writes it: in double quotes, unless it is an identifier and no word of UVL."""
    return name if identifier_at(name, 0) == name and name not in RESERVED else f'"{name}"'


def lines_to(model, line):
    """The lines of the reply to a line of a script: a command without words, or `valid` with names."""
    command, *names = [quoted or plain for quoted, plain in WORD.findall(line)]
    if command == "valid":
        if not set(names) <= set(model.names):
            return ["refused unknown-feature"]
        return ["yes" if is_product(model, set(names)) else "no"]
    products = [chosen for chosen in sets_of(model) if is_product(model, chosen)]
    if command == "void":
        return ["no" if products else "yes"]
    return [written(name) for name in found(model, command, products)] if products else ["refused void"]


def reply_to(model, line):
    """The reply to such a line."""
    return "".join(f"{it}\n" for it in [*lines_to(model, line), "."])


def fault_line(fault):
    line, column = fault.place
    return f"fault {fault.path}:{line}:{column} E{fault.number:02} {FAULTS[fault.number]}\n"


def answer(contents, main, lines):
    """What the program writes for the files at some paths, of which one is the main file, and a script; and its status."""
    try:
        model = model_of(contents, main)
    except FileFault as fault:
        return fault_line(fault), 3
    return "".join(reply_to(model, line) for line in lines), 0
