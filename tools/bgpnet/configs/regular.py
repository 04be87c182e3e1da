"""Regular expressions as FRR reads them: extended ones of POSIX, as the GNU C library takes them.

A `_` stands for an end of the text, a blank, a comma or a bracket; FRR puts that in as text, also where the expression
has brackets of its own."""
import re

UNDERLINE = "(^|[,{}() ]|$)"
# What FRR takes in an expression of an as-path list.
OF_PATHS = frozenset("0123456789_^|[,{}() ]$*+.?-\\")
# How many groups and repetitions may stand in one another.
MOST_NESTED = 100
TOO_DEEP = "more in one another than is read here"


class BadExpression(Exception):
    """Why an expression is no expression."""


class Reader:
    """Reads an expression from left to right, and writes the same one in Python's language."""

    def __init__(self, text):
        self.text, self.at, self.depth = text, 0, 0

    def front(self):
        return self.text[self.at:self.at + 1]

    def take(self):
        self.at += 1
        return self.text[self.at - 1]

    def branches(self):
        found = [self.branch()]
        while self.front() == "|":
            self.take()
            found.append(self.branch())
        return "(?:" + "|".join(found) + ")"

    def branch(self):
        pieces = ""
        while self.front() and self.front() != "|" and not (self.front() == ")" and self.depth):
            pieces += self.piece()
        return pieces

    def piece(self):
        is_anchor = self.front() in ("^", "$")
        piece, depth = self.atom(), self.depth
        while self.front() and self.front() in "*+?{":
            if is_anchor:
                raise BadExpression("a repetition of ^ or $")
            depth += 1
            self.bound(depth)
            piece = f"(?:{piece}{self.repetition()})"
        return piece

    def atom(self):
        sign = self.take()
        if sign == "(":
            return self.group()
        if sign == "[":
            return self.bracket()
        if sign in "*+?{":
            raise BadExpression(f"'{sign}' behind nothing")
        if sign == "\\":
            return self.escaped()
        return {".": "[^\\0]", "^": "\\A", "$": "\\Z"}.get(sign) or re.escape(sign)

    @staticmethod
    def bound(depth):
        if depth > MOST_NESTED:
            raise BadExpression(TOO_DEEP)

    def group(self):
        self.depth += 1
        self.bound(self.depth)
        inner = self.branches()
        if self.front() != ")":
            raise BadExpression("an open (")
        self.take()
        self.depth -= 1
        return inner

    def escaped(self):
        if not self.front():
            raise BadExpression("a \\ at the end")
        sign = self.take()
        if sign.isalnum() or sign in "<>`'":
            raise BadExpression(f"'\\{sign}', which is no expression of POSIX")
        return re.escape(sign)

    def bracket(self):
        is_other = self.front() == "^"
        if is_other:
            self.take()
        signs = []
        while not signs or self.front() != "]":
            if not self.front():
                raise BadExpression("an open [")
            signs.append(self.take())
            if signs[-1] == "[" and self.front() and self.front() in ".:=":
                raise BadExpression(f"'[{self.front()}', a class of signs")
        self.take()
        return "[" + "^" * is_other + self.ranges(signs) + "]"

    @staticmethod
    def ranges(signs):
        found, at = "", 0
        while at < len(signs):
            if at + 2 < len(signs) and signs[at + 1] == "-":
                if signs[at] > signs[at + 2]:
                    raise BadExpression(f"the range '{signs[at]}-{signs[at + 2]}'")
                found += re.escape(signs[at]) + "-" + re.escape(signs[at + 2])
                at += 3
            else:
                found += re.escape(signs[at])
                at += 1
        return found

    def repetition(self):
        sign = self.take()
        if sign != "{":
            return sign
        found = re.compile(r"(\d{0,3})(,?)(\d{0,3})\}").match(self.text, self.at)
        if not found or not (found.group(1) or found.group(2)):
            raise BadExpression("a '{' that is no count")
        self.at = found.end()
        least, comma, most = found.groups()
        if comma and most and int(least or 0) > int(most):
            raise BadExpression("a count whose bounds are turned")
        return "{" + (least or "0") + comma + most + "}"


def expression(text):
    """The function that says whether an expression fits somewhere in a text."""
    try:
        return re.compile(Reader(text.replace("_", UNDERLINE)).branches()).search
    except (RecursionError, OverflowError):
        raise BadExpression(TOO_DEEP) from None


def path_expression(text):
    """The same of an expression of an as-path list, for which FRR takes some signs alone."""
    strange = next((sign for sign in text if sign not in OF_PATHS), None)
    if strange is not None:
        raise BadExpression(f"'{strange}', which FRR does not take for paths")
    return expression(text)
