"""A walk through the tokens of a file, as every part of the grammar takes them."""
from bgpnet.configs.bird.nodes import Scopes
from bgpnet.configs.bird.tokens import Token, written
from bgpnet.configs.places import Passed, Place, Reasons, refusal
from bgpnet.program import Refusal


# What begins an item that ends with its braces.
BRACED = ("function", "filter", "protocol", "template")


class Stream:
    """Tokens with a place among them, and the names that are defined so far. `reasons` has what is refused, and `lost`
    names whose definitions were: what hangs on these is not refused by itself."""

    routine = None

    def __init__(self, tokens, name):
        self.tokens, self.at, self.scopes, self.lost, self.reasons = tokens, 0, Scopes(), set(), Reasons()
        self.last = Token("end", "the end of the file", tokens[-1].place if tokens else Place(name, 1))

    @property
    def token(self):
        return self.peek(0)

    @property
    def place(self):
        return self.token.place

    def peek(self, more):
        at = self.at + more
        return self.tokens[at] if at < len(self.tokens) else self.last

    def next(self):
        token = self.token
        self.at += 1
        return token

    def refuse(self, why, place=None):
        raise refusal(place or self.place, why)

    def is_next(self, *values, more=0):
        """Whether the next token is one of some keywords and signs."""
        token = self.peek(more)
        return token.kind in ("word", "sign") and token.value in values

    def take(self, *values):
        """The value of the next token where it is one of some keywords and signs, which then is passed, or None."""
        return self.next().value if self.is_next(*values) else None

    def expect(self, *values):
        if not self.is_next(*values):
            self.unexpected(" or ".join(f"'{value}'" for value in values))
        return self.next()

    def unexpected(self, wanted):
        self.refuse(f"'{written(self.token)}' stands where BIRD takes {wanted}")

    def of_kind(self, kind, what):
        if self.token.kind != kind:
            self.unexpected(what)
        return self.next()

    def new_name(self, what):
        """The name that a line defines."""
        if self.token.kind == "word":
            self.refuse(f"'{self.token.value}' is a word of BIRD's language, and no name of {what}")
        return self.of_kind("name", f"the name of {what}")

    def known(self, kinds, what):
        """The symbol of the next name, which has to be defined above."""
        token = self.of_kind("name", what)
        symbol = self.found(token)
        if symbol is None or symbol.kind not in kinds:
            self.refuse(f"there is no {what} '{token.value}' above", token.place)
        return symbol

    def symbol(self):
        """The symbol of the next token, where that is a name that is defined, or None."""
        return self.found(self.token) if self.token.kind == "name" else None

    def found(self, token):
        """The symbol of a name, or None. What hangs on a name whose definition was refused is passed over."""
        symbol = self.scopes.find(token.value)
        if symbol is None and token.value in self.lost:
            raise Passed
        return symbol

    # ---- what is refused

    def try_to_read(self, read, skip):
        """Reads something, and says whether it is taken. Where it is refused the reason is kept, and it is passed
        over."""
        begin, routine, levels = self.at, self.routine, [dict(level) for level in self.scopes.levels]
        try:
            read()
            return True
        except Passed:
            pass
        except RecursionError:
            self.reasons.add(refusal(self.place, "what stands here is nested too deep"))
        except Refusal as why:
            self.reasons.add(why)
        self.routine, self.scopes.levels = routine, levels
        skip(begin)
        return False

    def skip_item(self, begin):
        """Passes over an item of the file that begins at a token: up to the brace that ends it, or to a semicolon. The
        name that it defines is lost."""
        first = self.tokens[begin]
        self.lost.update([token.value for token in self.tokens[begin:begin + 4] if token.kind == "name"][:1])
        self.at = begin
        if first.value in BRACED and first.kind == "word":
            self.skip_to("{")
            self.next()
            self.skip_to("}")
        else:
            self.skip_to(";", "}")
        self.next()

    def skip_option(self, begin):
        """Passes over an option of a protocol or a channel that begins at a token, with the semicolon behind it."""
        self.at = begin
        self.skip_to(";", "}")
        self.take(";")

    def skip_to(self, *ends):
        """Passes what stands in front of a sign, with the braces that open and close there."""
        depth = 0
        while self.token.kind != "end" and not (depth == 0 and self.is_next(*ends)):
            if self.is_next("{"):
                depth += 1
            elif self.is_next("}"):
                depth -= 1
            self.next()
