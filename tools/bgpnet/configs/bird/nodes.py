"""What a file's terms and statements are made of, and the names that it defines."""
from collections import namedtuple

from bgpnet.configs.places import refusal


class Node:
    """A part of a term or a statement: what it does, its parts, its type as far as the file says it, and its place."""

    __slots__ = ("op", "args", "type", "place")

    def __init__(self, op, args, type, place):
        self.op, self.args, self.type, self.place = op, args, type, place

    @property
    def is_constant(self):
        return self.op == "constant"

    def inner(self):
        """The nodes right below this one."""
        queue = list(self.args)
        for part in queue:
            if isinstance(part, Node):
                yield part
            elif isinstance(part, (list, tuple)) and type(part) in (list, tuple):
                queue += part

    def walk(self):
        """This node and all below it, each above its own."""
        left = [self]
        while left:
            node = left.pop()
            yield node
            left += reversed(list(node.inner()))


# A name: its kind, what it stands for, its type where it has a value, and where it is defined.
Symbol = namedtuple("Symbol", "name kind value type place")


class Routine:
    """A filter or a function: its parameters' types, how many values it keeps, and its statements. `code` is what the
    evaluator made of it, `kept` the place of braces above whose variables BIRD keeps room for."""

    def __init__(self, kind, name, place):
        self.kind, self.name, self.place = kind, name, place
        self.parameters, self.size, self.body, self.code, self.kept = [], 0, None, None, None

    def __str__(self):
        return f"{self.kind} {self.name}" if self.name else self.kind


class Scopes:
    """The names that stand above a place, inner ones first."""

    def __init__(self):
        self.levels = [{}]

    def find(self, name):
        for level in reversed(self.levels):
            if name in level:
                return level[name]
        return None

    def define(self, symbol):
        level = self.levels[-1]
        if symbol.name in level:
            raise refusal(symbol.place, f"'{symbol.name}' is defined already, at {level[symbol.name].place}")
        level[symbol.name] = symbol
        return symbol
