"""Large feature models, most of them made from a fixed seed, as the text of a UVL file and as numbers for a plain program."""
import itertools
import random

KINDS = {"mandatory": lambda k: (k, k), "optional": lambda k: (0, k), "alternative": lambda k: (1, 1), "or": lambda k: (1, k)}


class Feature:
    """A feature with its number in document order, and its groups: pairs of a kind and the members."""

    def __init__(self, depth):
        self.depth, self.groups, self.number = depth, [], None


class Model:
    """A tree, and rules: clauses of literals, or an implication of two features."""

    def __init__(self, root, rules):
        self.root, self.rules = root, rules

    def features(self):
        """All features in document order."""
        waiting = [self.root]
        while waiting:
            feature = waiting.pop()
            yield feature
            waiting += reversed([member for _, members in feature.groups for member in members])

    def text(self):
        """The model as a file."""
        lines = ["features", *tree_lines(self.root), "constraints", *(f"\t{rule_text(rule)}" for rule in self.rules), ""]
        return "\n".join(lines)

    def numbers(self):
        """The model as lines of numbers: of the features; of each group its parent, bounds and members; of each rule its
        literals, which are joined by `or`, a negative one for the absence of feature -n - 1."""
        rows = [(feature.number, *KINDS[kind](len(members)), len(members), *(it.number for it in members))
                for feature in self.features() for kind, members in feature.groups]
        clauses = [(len(rule), *rule) for rule in self.rules]
        lines = [(sum(1 for _ in self.features()),), (len(rows),), *rows, (len(clauses),), *clauses]
        return "".join(" ".join(map(str, line)) + "\n" for line in lines)


def tree_lines(feature, depth=1):
    yield "\t" * depth + f"F{feature.number}"
    for kind, members in feature.groups:
        yield "\t" * (depth + 1) + kind
        for member in members:
            yield from tree_lines(member, depth + 2)


def rule_text(rule):
    """A clause as people write it: an implication where it has one absence and one feature."""
    if len(rule) == 2 and rule[0] < 0 <= rule[1]:
        return f"F{-rule[0] - 1} => F{rule[1]}"
    return " | ".join(f"!F{-it - 1}" if it < 0 else f"F{it}" for it in rule)


def tree(random_, size, most_members, deepest):
    """A tree of so many features; each group has up to so many members."""
    root = Feature(1)
    open_, count = [root], 1
    while count < size:
        parent = random_.choice(open_[-40:])
        members = [Feature(parent.depth + 1) for _ in range(min(random_.randint(1, most_members), size - count))]
        kinds = ["mandatory", "optional", "optional", "optional"] + (["alternative", "or"] if len(members) > 1 else [])
        parent.groups.append((random_.choice(kinds), members))
        count += len(members)
        open_ += [member for member in members if member.depth < deepest]
    return numbered(root)


def numbered(root):
    """The model of a tree, its features numbered in document order, without rules."""
    model = Model(root, [])
    for number, feature in enumerate(model.features()):
        feature.number = number
    return model


def with_rules(random_, model, count, span, is_implication):
    """Adds rules over features that stand within so many lines of each other, each met by the model's first product."""
    size = sum(1 for _ in model.features())
    chosen = a_product(random_, model)
    while len(model.rules) < count:
        first = random_.randrange(size)
        near = [it for it in range(max(0, first - span), min(size, first + span)) if it != first]
        others = random_.sample(near, 1 if is_implication(random_) else 2)
        rule = [-first - 1, others[0]] if len(others) == 1 else [random_.choice([it, -it - 1]) for it in (first, *others)]
        if any((-it - 1 not in chosen) if it < 0 else it in chosen for it in rule):
            model.rules.append(rule)
    return model


def a_product(random_, model):
    """A product of the tree, so that rules which it meets leave one."""
    chosen, waiting = set(), [model.root]
    while waiting:
        feature = waiting.pop()
        chosen.add(feature.number)
        for kind, members in feature.groups:
            low, high = KINDS[kind](len(members))
            waiting += random_.sample(members, random_.randint(low, high))
    return chosen


def models():
    """Names and models: trees with rules in a line or at random, one like a kernel's configuration, and one like a car's."""
    for size in (100, 500, 1000, 2000):
        for share in (10, 25, 50):
            random_ = random.Random(size + share)
            count = size * share // 100
            yield f"line-{size}-{share}", with_rules(random_, tree(random_, size, 6, 12), count, 10, lambda it: it.random() < 0.5)
    for size, share in ((100, 10), (100, 25), (500, 10)):
        random_ = random.Random(size - share)
        count = size * share // 100
        yield f"random-{size}-{share}", with_rules(random_, tree(random_, size, 6, 12), count, size, lambda it: it.random() < 0.5)
    random_ = random.Random(850)
    yield "kernel", with_rules(random_, tree(random_, 850, 12, 6), 500, 60, lambda it: it.random() < 0.95)
    random_ = random.Random(2000)
    yield "car", with_rules(random_, tree(random_, 2000, 20, 8), 4000, 20, lambda it: it.random() < 0.7)


def generated(size):
    """The tree of `uvl_gen` with so many features, and its rules: every tenth feature needs the one before, and the numbers
    of the first eight features that are chosen add up to 25 at most. The last one is told by clauses: of each smallest set
    of features that add up to more, one isn't chosen."""
    made, parent = [Feature(1)], 1
    while len(made) < size:
        kind = ("mandatory", "or", "alternative", "optional")[parent % 4]
        above = made[parent - 1]
        members = [Feature(above.depth + 1) for _ in range(min(4, size - len(made)))]
        above.groups.append((kind, members))
        made += members
        parent += 1
    model = numbered(made[0])
    number = [0, *(feature.number for feature in made)]
    model.rules = [[-number[it] - 1, number[it - 1]] for it in range(10, size + 1, 10)]
    costs = range(1, min(size, 8) + 1)
    for count in costs:
        for chosen in itertools.combinations(costs, count):
            if 25 < sum(chosen) <= 25 + min(chosen):
                model.rules.append([-number[it] - 1 for it in chosen])
    return model


def chain(size):
    """A root with optional features, each of which needs the one before."""
    made = [Feature(1)] + [Feature(2) for _ in range(size - 1)]
    made[0].groups.append(("optional", made[1:]))
    model = numbered(made[0])
    model.rules = [[-it - 1, it - 1] for it in range(2, size)]
    return model


def analysed():
    """Names and models for analyses: generated ones, chains of rules, and the one like a kernel's configuration."""
    for size in (50, 100, 200, 300, 500, 1000):
        yield f"gen-{size}", generated(size)
    for size in (300, 600, 1000, 2000):
        yield f"chain-{size}", chain(size)
    for name, model in models():
        if name in ("line-1000-25", "kernel"):
            yield name, model
