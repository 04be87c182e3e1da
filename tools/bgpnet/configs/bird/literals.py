"""The grammar of what is written out: prefixes, sets, masks of paths (BIRD's manual, chapter 5).

    set       = "[" [item {"," item}] "]"
    item      = atom [".." atom] | "(" part "," part ["," part] ")" [".." "(" part "," part ["," part] ")"]
              | PREFIX ["+" | "-" | "{" NUM "," NUM "}"]
    atom      = NUM | ADDRESS | ENUM | NAME | "(" term ")"                     no NAME in the arms of a case
    part      = term [".." term] | "*"
    mask      = "[=" { ("*" | "?" | NUM [".." NUM] | NAME | set | "(" term ")") ["+"] } "=]"
"""
from bgpnet.configs.bird import attributes
from bgpnet.configs.bird.nodes import Node
from bgpnet.configs.bird.operations import OF_SETS, result_of, wrong_types
from bgpnet.configs.bird.run import Failure, value_of
from bgpnet.configs.bird.sets import PrefixSet, Set
from bgpnet.configs.bird.stream import Stream
from bgpnet.configs.bird.values import MOST, MOST_HALF, NAMED, Prefix6, Triple, pair_of, type_of
from bgpnet.configs.lists import mask_of
from bgpnet.network import Prefix

# What an extended community begins with.
KINDS = ("rt", "ro", "generic", "unknown")


class Literals(Stream):
    """Reads sets and masks. A term whose parts are all constants is worked out at once."""

    # ---- nodes

    def constant(self, value, place):
        return Node("constant", [value], type_of(value), place)

    def operation(self, op, args, place):
        """A node of an operation, its types checked as far as the file says them."""
        if why := wrong_types(op, args):
            self.refuse(why, place)
        node = Node(op, args, result_of(op, args), place)
        return self.worked_out(node) if all(arg.is_constant for arg in args) else node

    def worked_out(self, node):
        try:
            return self.constant(value_of(node), node.place)
        except Failure as why:
            return self.refuse(f"{why}: BIRD does not take it", node.place)

    # ---- addresses and prefixes

    def address_or_prefix(self):
        address = self.of_kind("address", "an address").value
        if not self.is_next("/"):
            return address
        return self.prefix_of(address)

    def prefix_of(self, address):
        """The prefix of an address that was taken, whose length stands next."""
        length, place = self.length(32)
        if address & ~mask_of(length):
            self.refuse(f"an address with bits behind its length, /{length}: BIRD does not take it", place)
        return Prefix(int(address), length)

    def length(self, most):
        """The length of a prefix, and where it stands."""
        self.expect("/")
        token = self.of_kind("number", "a length")
        if token.value > most:
            self.refuse(f"a length of {token.value}", token.place)
        return token.value, token.place

    def prefix(self):
        found = self.address_or_prefix()
        if not isinstance(found, Prefix):
            self.unexpected("the length of a prefix")
        return found

    def prefix6(self):
        address = self.of_kind("address6", "an address of IPv6").value
        return Prefix6(f"{address}/{self.length(128)[0]}")

    # ---- sets

    def set(self):
        self.expect("[")
        if self.take("]"):
            return Set(None, [])
        if self.token.kind == "address6" and self.is_next("/", more=1):
            return self.prefix_set(self.prefix6, 128)
        if self.token.kind == "address" and self.is_next("/", more=1):
            return self.prefix_set(self.prefix, 32)
        items = self.items(True)
        self.expect("]")
        return self.set_of(items)

    def items(self, takes_names):
        found = self.item(takes_names)
        while self.take(","):
            found += self.item(takes_names)
        return found

    def set_of(self, items):
        kinds = {type_of(low) for low, _ in items}
        if len(kinds) > 1:
            self.refuse(f"a set of several types, {' and '.join(sorted(kinds))}: what it has hangs on BIRD's tree")
        return Set(kinds.pop(), items)

    def prefix_set(self, read, most):
        """A set of prefixes of one family. One of IPv6 has no route here."""
        items = []
        while True:
            prefix = read()
            low = high = prefix.length if most == 32 else int(prefix.split("/")[1])
            if self.take("+"):
                high = most
            elif self.take("-"):
                low = 0
            elif self.take("{"):
                low = self.of_kind("number", "a length").value
                self.expect(",")
                high = self.of_kind("number", "a length").value
                self.expect("}")
                if not low <= high <= most:
                    self.refuse(f"a range of lengths {{{low},{high}}}: BIRD does not take it")
            items.append((prefix, low, high))
            if not self.take(","):
                self.expect("]")
                return PrefixSet(items if most == 32 else [])

    def item(self, takes_names):
        """The intervals of an item."""
        if self.is_next("("):
            return self.bracketed_item()
        low = self.atom(takes_names)
        return self.ranged(low, lambda: self.atom(takes_names))

    def ranged(self, low, atom):
        """An interval, or one value."""
        if not self.take(".."):
            return [(low, low)]
        place, high = self.place, atom()
        if type_of(high) != type_of(low):
            self.refuse(f"a range from {type_of(low)} to {type_of(high)}", place)
        return [(low, high)]

    def atom(self, takes_names):
        token = self.token
        if token.kind in ("number", "address"):
            return self.next().value
        if token.kind == "word" and token.value in NAMED:
            return NAMED[self.next().value]
        if token.kind == "name" and takes_names:
            symbol = self.known(("constant",), "constant")
            if symbol.type not in OF_SETS:
                self.refuse(f"'{symbol.name}' is {symbol.type}, and no item of a set", token.place)
            return symbol.value
        if token.value == "(":
            return self.constant_in_brackets()
        return self.unexpected("an item of a set")

    def constant_in_brackets(self):
        place, found = self.place, self.in_brackets()
        if not found.is_constant or found.type not in OF_SETS:
            self.refuse("an item of a set that is no constant number, pair or address", place)
        return found.args[0]

    def bracketed_item(self):
        """A term in brackets, a pair or a large community with ranges and `*`, or a range of these."""
        place, parts = self.parts_in_brackets(self.part)
        if len(parts) == 1:
            node = parts[0][0]
            if not isinstance(node, Node) or parts[0][1] is not node or node.type not in OF_SETS:
                self.refuse("an item of a set that is no number, pair or address", place)
            return self.ranged(node.args[0], lambda: self.atom(True))
        if self.is_next(".."):
            return self.range_of_lists(parts, place)
        bounds = [self.bounds(part, MOST_HALF if len(parts) == 2 else MOST) for part in parts]
        return self.pairs(bounds) if len(parts) == 2 else self.triples(bounds, place)

    def parts_in_brackets(self, read):
        """Where brackets begin, and what stands in them: one part, two or three."""
        place = self.expect("(").place
        if self.is_next(*KINDS):
            self.refuse(f"'({self.token.value}, ..)': {attributes.REFUSED['bgp_ext_community']}")
        parts = [read()]
        while len(parts) < 3 and self.take(","):
            parts.append(read())
        self.expect(")")
        return place, parts

    def part(self):
        """Nodes of the ends of a part of a pair, or `*`."""
        if self.take("*"):
            return "*", "*"
        low = self.constant_part()
        return low, self.constant_part() if self.take("..") else low

    def constant_part(self):
        place, found = self.place, self.term()
        if not found.is_constant:
            self.refuse("a set of what is no constant", place)
        return found

    def bounds(self, part, most):
        if part[0] == "*":
            return 0, most
        for node in part:
            if node.type != "int" or node.args[0] > most:
                self.refuse(f"'{node.args[0]}' is no number from 0 to {most}", node.place)
        low, high = (node.args[0] for node in part)
        if low > high:
            self.refuse("a range that goes down: BIRD does not take it", part[0].place)
        return low, high

    @staticmethod
    def pairs(bounds):
        (low, high), (least, most) = bounds
        if (least, most) == (0, MOST_HALF):
            return [(pair_of(low, 0), pair_of(high, MOST_HALF))]
        return [(pair_of(asn, least), pair_of(asn, most)) for asn in range(low, high + 1)]

    def triples(self, bounds, place):
        """Ranges and `*` stand from some place on to the end: behind a range there is `*` alone."""
        ranged = [at for at, (low, high) in enumerate(bounds) if low != high]
        if ranged and any(bound != (0, MOST) for bound in bounds[ranged[0] + 1:]):
            self.refuse("a range of large communities with numbers behind it: BIRD does not take it", place)
        return [(Triple(low for low, _ in bounds), Triple(high for _, high in bounds))]

    def range_of_lists(self, parts, place):
        """A range from one pair or large community to another."""
        self.expect("..")
        self.expect("(")
        others = [self.part()]
        while len(others) < len(parts):
            self.expect(",")
            others.append(self.part())
        self.expect(")")
        ends = []
        for found in (parts, others):
            bounds = [self.bounds(part, MOST_HALF if len(parts) == 2 else MOST) for part in found]
            if any(part[0] == "*" or low != high for part, (low, high) in zip(found, bounds)):
                self.refuse("a range between what has ranges itself: BIRD does not take it", place)
            ends.append([low for low, _ in bounds])
        low, high = (pair_of(*end) if len(parts) == 2 else Triple(end) for end in ends)
        if len(parts) == 2 and (low > high or (ends[0][1] > ends[1][1])):
            self.refuse("a range of pairs that goes down: BIRD does not take it", place)
        return [(low, high)]

    # ---- masks

    def mask(self):
        place, items = self.expect("[=").place, []
        while not self.take("=]"):
            items.append(self.mask_item())
        node = Node("mask", items, "bgpmask", place)
        return self.worked_out(node) if all(not isinstance(item, Node) or item.is_constant for item in items) else node

    def mask_item(self):
        """A sign, two numbers, or a node of a number or a set."""
        token = self.token
        if token.value in ("*", "?", "+") and token.kind == "sign":
            return self.next().value
        if token.kind == "number":
            low = self.next().value
            return (low, self.of_kind("number", "a number").value) if self.take("..") else (low, low)
        if token.value == "[":
            return self.constant(self.set(), token.place)
        if token.kind == "name":
            symbol = self.symbol()
            if symbol is None or symbol.kind not in ("constant", "variable"):
                self.refuse(f"'{token.value}' is no number that is defined above")
            return self.named(token)
        if token.value == "(":
            return self.in_brackets()
        return self.unexpected("a part of a mask")
