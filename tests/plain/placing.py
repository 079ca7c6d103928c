"""Resolving a set of files: the placed tree of each file and its rules, or the first fault of one of them.

Numbers in rules aren't counted yet: where there is no fault, and a rule of some file has a literal, a sum, arithmetic or a
comparison, the set is NotBuilt.
"""
from collections import namedtuple

from .files import FRONT, FileFault, load
from .syntax import BOOLEAN, all_rules, dotted, features_of, nodes_of

NUMERIC = frozenset(["number", "sum", "+", "-", "*"])  # what makes a number
FACTOR_LIMIT = 1000000
MOST_FEATURES, MOST_DEPTH, MOST_RULES, MOST_NODES = 2048, 64, 65536, 4194304

Tree = namedtuple("Tree", "name groups")  # a feature with what is below it
Members = namedtuple("Members", "low high members")  # a group with its bounds


def under(qualifier, tree):
    """A tree with the qualifier and a dot in front of each name."""
    groups = [Members(low, high, [under(qualifier, it) for it in members]) for low, high, members in tree.groups]
    return Tree(f"{qualifier}.{tree.name}", groups)


def depth_of(tree):
    return 1 + max((depth_of(it) for group in tree.groups for it in group.members), default=0)


def bounds_of(kind, members):
    """The least and the greatest number of members that may be in a product with the parent."""
    words = {"mandatory": (members, members), "optional": (0, members), "alternative": (1, 1), "or": (1, members)}
    low, high = words.get(kind, kind)
    return min(low, members + 1), members if high is None else min(high, members)


def doubled_keys(attributes):
    """The places of the keys that stand earlier in their list, in the text's order."""
    keys = set()
    for attribute in attributes:
        if attribute.key in keys:
            yield attribute.place
        keys.add(attribute.key)
        for inner in attribute.lists:
            yield from doubled_keys(inner)


class Placed:
    """A file whose names are resolved: its placed tree, its own rules, and the files that it places, each behind the
    qualifier; and how many rules and nodes of rules these are together.
    """

    def __init__(self, loaded):
        self.path, self.file, self.tree = loaded.path, loaded.file, None
        self.names, self.own_rules, self.placings = [], [], []
        self.keys = {}  # for each name the keys of its attributes, and whether each is a number
        self.rule_count = self.node_count = 0

    def rules(self):
        """Pairs of what stands in front of the names of a rule, and the rule."""
        yield from (("", rule) for rule in self.own_rules)
        for qualifier, placed in self.placings:
            yield from ((f"{qualifier}.{front}", rule) for front, rule in placed.rules())


class Resolving(Placed):
    """A file whose lines are looked at from top to bottom. `imported` has the resolved files by their qualifiers."""

    def __init__(self, loaded, resolved):
        super().__init__(loaded)
        self.imported = {line.qualifier: resolved[it.path] for line, it in zip(loaded.file.imports, loaded.targets)}

    def raise_first(self, faults):
        for number, place in faults:
            raise FileFault(self.path, number, place)

    def is_too_much(self, rules, nodes):
        """Whether so many rules, and nodes in them, are too many with those so far."""
        return self.rule_count + rules > MOST_RULES or self.node_count + nodes > MOST_NODES

    def count(self, rules, nodes):
        self.rule_count += rules
        self.node_count += nodes

    def faults_of_group(self, group):
        low, high = group.kind if isinstance(group.kind, tuple) else (0, None)
        if high is not None and low > high:
            yield 19, group.place

    def faults_of_placing(self, feature, depth):
        """The faults that a placing line alone may have, but for the last in the order."""
        qualifier, root = dotted(feature.parts[:-1]), feature.parts[-1]
        if qualifier not in self.imported or self.imported[qualifier].tree.name != root:
            yield 15, feature.place
        if qualifier in [other for other, _ in self.placings]:
            yield 22, feature.place
        if feature.attributes or feature.rules or feature.groups:
            yield 30, feature.place
        if depth - 1 + depth_of(self.imported[qualifier].tree) > MOST_DEPTH:
            yield 24, feature.place

    def faults_of_names(self, feature, names):
        """The faults of any line of a feature that brings these names."""
        if not set(names).isdisjoint(self.names):
            yield 13, feature.place
        for place in doubled_keys(feature.attributes):
            yield 14, place
        if len(self.names) + len(names) > MOST_FEATURES:
            yield 23, feature.place

    def place(self, feature, depth):
        """Reads a placing line; answers the tree that stands there."""
        self.raise_first(self.faults_of_placing(feature, depth))
        qualifier = dotted(feature.parts[:-1])
        placed = self.imported[qualifier]
        tree = under(qualifier, placed.tree)
        names = [it.name for it in features_of(tree)]
        self.raise_first(self.faults_of_names(feature, names))
        if self.is_too_much(placed.rule_count, placed.node_count):
            raise FileFault(self.path, 31, feature.place)
        self.count(placed.rule_count, placed.node_count)
        self.names += names
        self.keys.update((f"{qualifier}.{name}", keys) for name, keys in placed.keys.items())
        self.placings.append((qualifier, placed))
        return tree

    def declare(self, feature, depth):
        """Reads the line of a feature of the file's own, and all below it; answers its tree."""
        (name,) = feature.parts
        self.raise_first(self.faults_of_names(feature, [name]))
        self.names.append(name)
        self.keys[name] = {it.key: it.is_number for it in feature.attributes}
        tree = Tree(name, [])
        for group in feature.groups:
            self.raise_first(self.faults_of_group(group))
            members = [self.read(member, depth + 1) for member in group.members]
            tree.groups.append(Members(*bounds_of(group.kind, len(members)), members))
        return tree

    def read(self, feature, depth):
        return self.declare(feature, depth) if len(feature.parts) == 1 else self.place(feature, depth)

    def faults_of_rule(self, rule, nodes):
        if self.is_too_much(1, len(nodes)):
            yield 31, rule.place
        found = [(node.place, number) for node, is_number in nodes for number in self.faults_of_node(node, is_number)]
        if found:
            place, number = min(found)
            yield number, place

    def faults_of_node(self, node, is_number):
        """The faults of a node alone, which stands in a number position or else in a Boolean one."""
        if node.kind == "reference":
            yield from self.faults_of_reference(node.parts, is_number)
        elif is_number != (node.kind in NUMERIC):
            yield 18
        if node.kind == "*":
            yield from faults_of_product(*node.parts)

    def faults_of_reference(self, parts, is_number):
        feature = dotted(parts[:-1] if is_number and len(parts) > 1 else parts)
        if feature not in self.keys:
            yield 15
        elif is_number and len(parts) == 1:
            yield 18
        elif is_number and parts[-1] not in self.keys[feature]:
            yield 16
        elif is_number and not self.keys[feature][parts[-1]]:
            yield 18

    def add_rule(self, rule):
        nodes = list(nodes_of(rule))
        self.raise_first(self.faults_of_rule(rule, nodes))
        self.count(1, len(nodes))
        self.own_rules.append(rule)

    def resolve(self):
        if self.file.root is None:
            raise FileFault(self.path, 28, self.file.end)
        self.tree = self.read(self.file.root, 1)
        for rule in all_rules(self.file):
            self.add_rule(rule)


def faults_of_product(*sides):
    literals = [side.parts[0] for side in sides if side.kind == "number"]
    if not literals or any(node.kind == "*" for side in sides for node, _ in nodes_of(side)):
        yield 25
    elif all(literal >= FACTOR_LIMIT for literal in literals):
        yield 27


def has_number(rule):
    """Whether a rule has a literal, a sum, arithmetic or a comparison."""
    return any(node.kind not in BOOLEAN and node.kind != "reference" for node, _ in nodes_of(rule))


def resolve(files):
    """The main file of a loaded set, resolved. A FileFault says what is wrong."""
    resolved = {}
    for loaded in files:
        placed = Resolving(loaded, resolved)
        placed.resolve()
        resolved[loaded.path] = placed
    if any(has_number(rule) for placed in resolved.values() for rule in placed.own_rules):
        raise FileFault(files[-1].path, 99, FRONT)
    return resolved[files[-1].path]


def model_of(contents, main):
    """The resolved main file of the set that a path begins, or a FileFault."""
    return resolve(load(contents, main))
