"""The faults with a name of their own, and the first fault of a text's tokens."""
from .grammar import first_dead
from .lexing import CLOSES, LAYOUT_TOKENS, Fault

NAMES = {
    4: "BadCharacter", 5: "BadIndent", 6: "Unclosed", 7: "NumberTooWide", 8: "Syntax", 9: "TypedFeature",
    10: "FeatureCardinality", 11: "Average", 12: "UnsupportedOperation", 17: "ExpressionTooLarge", 24: "TooDeep",
    99: "NotBuilt",
}
SECTIONS = frozenset(["include", "imports", "features", "constraints"])
RULE_FRONTS = LAYOUT_TOKENS | {",", "[", "{", "constraint"}
CONNECTIVES = frozenset(["&", "|", "=>", "<=>"])
OPERATORS = CONNECTIVES | frozenset(["!", "==", "!=", "<", "<=", ">", ">=", "+", "-", "*"])
MOST_NODES, MOST_NESTING, MOST_DEPTH = 8192, 128, 64


class Position:
    """What the tokens in front of a token say of it: its section, what it stands in within its line, and the nodes in
    front of it since a rule may have begun.
    """

    def __init__(self, tokens):
        self.tokens, self.index = tokens, 0
        self.section, self.indentations, self.is_heading = None, 0, False
        self.around, self.nodes = [], 0

    def is_first(self):
        return self.index == 0 or self.tokens[self.index - 1].kind in LAYOUT_TOKENS

    def back(self, steps):
        """The kind of the token so many in front, or None."""
        return self.tokens[self.index - steps].kind if self.index >= steps else None

    def section_at(self):
        """The section of this token. Behind its line a section is over, unless a body begins there."""
        return self.section if self.is_heading or self.indentations else None

    def open_brackets(self):
        return sum(1 for kind in self.around if kind != "!")

    def step(self):
        """Goes over a token."""
        kind, first = self.tokens[self.index].kind, self.is_first()
        self.step_section(kind, first)
        self.step_nesting(kind)
        self.nodes = 0 if kind in RULE_FRONTS else self.nodes + is_node(self.tokens, self.index)
        self.index += 1

    def step_section(self, kind, first):
        if self.indentations:
            self.indentations += {"Indent": 1, "Dedent": -1}.get(kind, 0)
        elif self.is_heading:
            self.is_heading = kind != "Newline"
        elif kind == "Indent" and self.section and self.back(1) == "Newline":
            self.indentations = 1
        else:
            self.section = kind if first and kind in SECTIONS else None
            self.is_heading = self.section is not None

    def step_nesting(self, kind):
        """`around` has the open brackets of the line, and each `!` that applies to what follows."""
        if kind in LAYOUT_TOKENS:
            self.around = []
        if kind in CONNECTIVES or kind == "," or kind in CLOSES:
            while self.around and self.around[-1] == "!":
                self.around.pop()
        if kind in CLOSES and self.around:
            self.around.pop()
        if kind in CLOSES.values() or kind == "!":
            self.around.append(kind)


def is_node(tokens, index):
    """Whether a node stands at a token, if it is one of a rule."""
    kind = tokens[index].kind
    one, two = (tokens[index - steps].kind if index >= steps else None for steps in (1, 2))
    if kind == "number":
        return one != "-" or two in ("name", "number", ")")
    if kind == "name":
        return one != "." and not (one == "(" and two == "sum")
    return kind == "sum" or kind in OPERATORS


def is_in_rule(position):
    """Whether a token may stand in a rule: in a line of constraints, or somewhere in braces."""
    section = position.section_at()
    return section == "constraints" and position.indentations == 1 or section == "features" and position.around != []


def met_by_tokens(position):
    """The faults that are met at a token, whether or not it can stand there."""
    token, section = position.tokens[position.index], position.section_at()
    kind, in_features = token.kind, section == "features"
    if kind in ("String", "Integer", "Real") and in_features and position.is_first():
        yield 9
    if kind == "cardinality" and in_features and not position.is_first() and position.open_brackets() == 0:
        yield 10
    if kind == "avg" and section != "include":
        yield 11
    behind_sum = [position.back(steps) for steps in (3, 2, 1)] == ["sum", "(", "name"]
    if (kind == "/" or kind in ("len", "floor", "ceil") and section != "include"
            or kind == "text" and section == "constraints" or kind == "," and behind_sum):
        yield 12
    if (kind in CLOSES.values() or kind == "!") and len(position.around) == MOST_NESTING:
        yield 24


def met_alive(position):
    """The faults that are met only at a token that can stand there."""
    kind = position.tokens[position.index].kind
    if is_in_rule(position) and position.nodes == MOST_NODES and is_node(position.tokens, position.index):
        yield 17
    is_name = position.is_first() or position.back(1) == "Boolean" and position.back(2) in LAYOUT_TOKENS
    if kind == "name" and is_name and position.section_at() == "features" and position.indentations == 2 * MOST_DEPTH + 1:
        yield 24


def check_tokens(tokens):
    """Raises the first fault of the tokens, if there is one."""
    position, dead = Position(tokens), first_dead(tokens)
    while position.index < len(tokens):
        met = list(met_by_tokens(position))
        if position.index == dead:
            raise Fault(min(met, default=8), tokens[dead].place)
        met += met_alive(position)
        if met:
            raise Fault(min(met), tokens[position.index].place)
        position.step()
