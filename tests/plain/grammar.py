"""The grammar, read from docs/language.md, and the first of a file's tokens with which no file can go on.

A set of stacks is kept: each says what has still to come, the next thing first, in one of the ways in which the tokens so
far may be the front of a file. A token leads from each stack that it fits to the next; where no stack is left, no file
begins with these tokens.
"""
import os
import re

LANGUAGE = os.path.join(os.path.dirname(os.path.realpath(__file__)), "..", "..", "docs", "language.md")
GRAMMAR = re.compile(r"^```\n((?:file|expression) .*?)^```$", re.M | re.S)
PARTS = re.compile(r'"[^"]+"|[A-Za-z]+|[()|?*+]')


class Rules:
    """The rules of the grammar, each a form: a tuple of a word and what belongs to it."""

    def __init__(self, text):
        self.forms = {}
        for rule in re.split(r"\n(?=[a-z]+ *=)", text.strip()):
            name, _, right = rule.partition("=")
            self.parts = PARTS.findall(right)
            self.forms[name.strip()] = self.choice()

    def choice(self):
        """Alternatives, up to a closing parenthesis or the end."""
        alternatives = [self.sequence()]
        while self.parts and self.parts[0] == "|":
            self.parts.pop(0)
            alternatives.append(self.sequence())
        return "choice", alternatives

    def sequence(self):
        parts = []
        while self.parts and self.parts[0] not in ("|", ")"):
            parts.append(self.repeated(self.single()))
        return "sequence", parts

    def repeated(self, form):
        if self.parts and self.parts[0] in ("?", "*", "+"):
            return self.parts.pop(0), form
        return form

    def single(self):
        part = self.parts.pop(0)
        if part == "(":
            form = self.choice()
            self.parts.pop(0)
            return form
        return ("token", part.strip('"')) if part.startswith('"') else ("name", part)


def grammar():
    """The text of all rules."""
    with open(LANGUAGE, encoding="utf-8") as file:
        return "".join(GRAMMAR.findall(file.read()))


RULES = Rules(grammar()).forms


def expand(form, rest):
    """The stacks that a form in front of a rest stands for, each with a token on top."""
    word, inner = form
    if word == "token" or word == "name" and inner not in RULES:
        yield inner, rest
    elif word == "name":
        yield from expand(RULES[inner], rest)
    elif word == "choice":
        for alternative in inner:
            yield from expand(alternative, rest)
    elif word == "sequence":
        stack = rest
        for part in reversed(inner):
            stack = part, stack
        yield from top_of(stack)
    elif word == "+":
        yield from expand(inner, (("*", inner), rest))
    else:
        yield from expand(inner, (form, rest) if word == "*" else rest)
        yield from top_of(rest)


def top_of(stack):
    """A stack with a token on top, for each way to go on; none where nothing has to come."""
    if stack is not None:
        yield from expand(*stack)


def first_dead(tokens):
    """The index of the first token with which no file can go on, or None where the tokens are a file."""
    stacks = [(("name", "file"), None)]
    for index, token in enumerate(tokens):
        stacks = [rest for stack in stacks for kind, rest in top_of(stack) if kind in token.kinds]
        if not stacks:
            return index
    return None
