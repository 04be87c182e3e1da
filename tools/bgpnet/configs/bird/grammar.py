"""The grammar of terms: what stands where a value does (BIRD's manual, chapter 5).

    term      = relation { ("&&" | "||") relation }                            from the left, of one rank
    relation  = sum [ ("=" | "!=" | "<" | ">" | "<=" | ">=" | "~" | "!~") sum ]
    sum       = product { ("+" | "-") product }
    product   = factor { ("*" | "/") factor }
    factor    = "!" factor | primary { "." method }
    primary   = constant | NAME | NAME "(" [term {"," term}] ")" | attribute | "(" term ")"
              | "(" term "," term ["," term] ")" | "(" KIND "," term "," term ")" | set | mask
              | "+" empty "+" | "-" empty "-" | "--" empty "--" | "---" empty "---"
              | ("prepend" | "add" | "delete" | "filter") "(" term "," term ")" | ("defined" | "format") "(" term ")"

Sets and masks: configs.bird.literals.
"""
from bgpnet.configs.bird import attributes
from bgpnet.configs.bird.literals import Literals
from bgpnet.configs.bird.nodes import Node
from bgpnet.configs.bird.operations import BINARY, CHANGES, METHODS, TURNED
from bgpnet.configs.bird.values import EMPTY, NAMED

RELATIONS = ("=", "!=", "<", ">", "<=", ">=", "~", "!~")
EMPTIES = {1: "clist", 2: "eclist", 3: "lclist"}


class Terms(Literals):
    """Reads terms. One whose parts are all constants is worked out at once."""

    # ---- by rank

    def term(self):
        left = self.relation()
        while self.is_next("&&", "||"):
            sign = self.next()
            left = self.operation(BINARY[sign.value], [left, self.relation()], sign.place)
        return left

    def relation(self):
        left = self.sum()
        if self.is_next(*RELATIONS):
            sign = self.next()
            right = self.sum()
            op, args = (TURNED[sign.value], [right, left]) if sign.value in TURNED else (BINARY[sign.value],
                                                                                         [left, right])
            left = self.operation(op, args, sign.place)
            if self.is_next(*RELATIONS):
                self.refuse(f"'{self.token.value}' behind another comparison: BIRD takes no chains of them")
        return left

    def sum(self):
        return self.chain(("+", "-"), self.product)

    def product(self):
        return self.chain(("*", "/"), self.factor)

    def chain(self, signs, part):
        left = part()
        while self.is_next(*signs):
            sign = self.next()
            left = self.operation(BINARY[sign.value], [left, part()], sign.place)
        return left

    def factor(self):
        if self.is_next("!"):
            sign = self.next()
            return self.operation("NOT", [self.factor()], sign.place)
        found = self.primary()
        while self.is_next("."):
            self.next()
            found = self.method(found)
        return found

    def method(self, of):
        """What stands behind a point."""
        token = self.next()
        if token.value == "mask":
            return self.operation("IP_MASK", [of, self.in_brackets()], token.place)
        if token.kind != "word" or token.value not in METHODS:
            self.refuse(f"'.{token.value}' stands where BIRD takes an operator as .len", token.place)
        return self.operation(METHODS[token.value], [of], token.place)

    def in_brackets(self):
        self.expect("(")
        found = self.term()
        self.expect(")")
        return found

    # ---- primaries

    def primary(self):
        token = self.token
        if token.kind == "address6" and self.is_next("/", more=1):
            return self.constant(self.prefix6(), token.place)
        if token.kind in ("number", "text", "rd", "address6"):
            return self.constant(self.next().value, token.place)
        if token.kind == "address":
            return self.constant(self.address_or_prefix(), token.place)
        if token.kind == "name":
            return self.named(token)
        if token.value == "(":
            return self.bracketed()
        if token.value == "[":
            return self.constant(self.set(), token.place)
        if token.value == "[=":
            return self.mask()
        if token.value in ("+", "-"):
            return self.empty()
        return self.worded(token)

    def worded(self, token):
        """A term that begins with a keyword."""
        word = token.value
        if word in ("true", "false"):
            return self.constant(self.next().value == "true", token.place)
        if word in NAMED:
            return self.constant(NAMED[self.next().value], token.place)
        if word in attributes.STATIC or word in attributes.DYNAMIC:
            return self.attribute()
        if word in CHANGES:
            self.next()
            return self.operation(CHANGES[word], self.arguments(2), token.place)
        if word in ("defined", "format"):
            self.next()
            return self.operation(word.upper(), self.arguments(1), token.place)
        if word == "roa_check":
            self.refuse("roa_check: what a table of ROAs has is not known here")
        return self.unexpected("a value")

    def arguments(self, count):
        self.expect("(")
        found = [self.term()]
        for _ in range(count - 1):
            self.expect(",")
            found.append(self.term())
        self.expect(")")
        return found

    def attribute(self):
        found = self.named_attribute()
        if found.args[0] in attributes.NOT_READ:
            self.refuse(f"{found.args[0]}: the interface of a route is not known here", found.place)
        return found

    def named_attribute(self):
        """The attribute that the next word names, wherever it stands."""
        token = self.next()
        self.refuse_attribute(token)
        type = attributes.DYNAMIC.get(token.value) or attributes.STATIC[token.value][0]
        return Node("attribute", [token.value], type, token.place)

    def refuse_attribute(self, token):
        if token.value in attributes.REFUSED:
            self.refuse(f"{token.value}: {attributes.REFUSED[token.value]}", token.place)

    def named(self, token):
        """A constant, a variable, an attribute of one's own, or the call of a function."""
        symbol = self.symbol()
        if symbol is None:
            self.refuse(f"'{token.value}' is defined nowhere above")
        self.next()
        if symbol.kind == "function":
            return self.call(symbol, token.place)
        if symbol.kind == "constant":
            return self.constant(symbol.value, token.place)
        if symbol.kind in ("variable", "attribute"):
            return Node(symbol.kind, [symbol.value], symbol.type, token.place)
        return self.refuse(f"'{token.value}' is a {symbol.kind}, and no value", token.place)

    def call(self, symbol, place):
        args = []
        self.expect("(")
        while not self.take(")"):
            if args:
                self.expect(",")
            args.append(self.term())
        if symbol.value.body is None:
            self.refuse(f"'{symbol.name}' calls itself: BIRD ends by a fault of its own", place)
        wanted = symbol.value.parameters
        if len(args) != len(wanted):
            self.refuse(f"'{symbol.name}' takes {len(wanted)} arguments, and here are {len(args)}", place)
        for at, (want, arg) in enumerate(zip(wanted, args), 1):
            if arg.type and arg.type != want:
                self.refuse(f"argument {at} of '{symbol.name}' must be {want}, and is {arg.type}", place)
        return Node("call", [symbol.value, args], None, place)

    def bracketed(self):
        """A term in brackets, a pair, a large community, or an extended one."""
        place, parts = self.parts_in_brackets(self.term)
        if len(parts) == 1:
            return parts[0]
        return self.operation("PAIR_CONSTRUCT" if len(parts) == 2 else "LC_CONSTRUCT", parts, place)

    def empty(self):
        """`+empty+`, `-empty-` and such."""
        place, sign, count = self.place, self.token.value, 0
        while self.take(sign):
            count += 1
        kind = "bgppath" if sign == "+" and count == 1 else EMPTIES.get(count) if sign == "-" else None
        if kind is None or not self.take("empty"):
            self.unexpected("a value")
        for _ in range(count):
            self.expect(sign)
        return self.constant(EMPTY[kind], place)
