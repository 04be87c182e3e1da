"""Reads a file in the language of BIRD.

    file      = { item }                                                       `;` alone is an item, too
    item      = "define" NAME "=" term ";" | "function" .. | "filter" NAME .. | "attribute" TYPE NAME ";"
              | ("protocol" | "template") .. | NETTYPE "table" NAME [".." ] ";" | "eval" term ";" | a row of the table
"""
import sys

from bgpnet.configs.bird import options
from bgpnet.configs.bird.evaluate import State
from bgpnet.configs.bird.nodes import Symbol
from bgpnet.configs.bird.protocols import Protocol, Protocols
from bgpnet.configs.bird.router import Router
from bgpnet.configs.bird.run import Failure, function_of
from bgpnet.configs.bird.sets import Mask, PrefixSet, Set
from bgpnet.configs.bird.tokens import Lexer
from bgpnet.configs.bird.values import type_of
from bgpnet.configs.places import Place, Reasons, refusal
from bgpnet.configs.router import Line

# The types that an attribute of one's own may have.
CUSTOM = ("int", "ip", "quad", "bgppath", "clist", "eclist", "lclist")
TABLES = ("ipv4", "ipv6", "vpn4", "vpn6", "roa4", "roa6", "flow4", "flow6", "mpls")
CLASSES = ("babel", "bfd", "bgp", "device", "direct", "kernel", "mrt", "ospf", "perf", "pipe", "radv", "rip", "rpki",
           "static")
# What stands behind the name of a protocol that has several kinds, and which of these are of IPv6.
VERSIONS, OF_IPV6 = {"ospf": ("v2", "v3"), "rip": ("ng",)}, ("v3", "ng")
# How deep calls of the reader may go, as braces and brackets stand in one another.
DEEPEST = 5000


class Reader(Protocols):
    """Reads the items of a file into a router."""

    def __init__(self, lexer, name):
        super().__init__(lexer.found, name)
        self.router, self.counts = Router(name, self.reasons), {}
        self.router.included = lexer.included
        for table in ("master4", "master6"):
            self.scopes.define(Symbol(table, "table", table, None, Place(name, 0)))

    def read_items(self):
        while self.token.kind != "end":
            self.try_to_read(self.top_item, self.skip_item)
        self.router.is_whole = not self.reasons

    def warn(self, place, said):
        self.router.warn(place, said)

    def top_item(self):
        token = self.token
        words = {"define": self.define, "filter": self.filter, "attribute": self.attribute_of_own,
                 "eval": self.evaluate, "protocol": lambda: self.protocol(False),
                 "template": lambda: self.protocol(True)}
        if self.take(";"):
            return
        if token.kind == "word" and token.value in words:
            self.next()
            words[token.value]()
        elif self.take("function"):
            self.function()
        elif token.kind == "word" and token.value in TABLES:
            self.table()
        else:
            self.option(self.router, options.TOP, {})
            self.expect(";")

    # ---- names

    def define(self):
        token = self.new_name_of("a constant")
        self.expect("=")
        place, term = self.place, self.term()
        try:
            value = function_of(term)(State(None, None))
        except (Failure, AttributeError) as why:
            self.refuse(f"what is defined can't be worked out: {why}", place)
        self.expect(";")
        type = value.type if isinstance(value, (Set, PrefixSet, Mask)) else type_of(value)
        self.scopes.define(Symbol(token.value, "constant", value, type, token.place))

    def new_name_of(self, what):
        token = self.new_name(what)
        if other := self.scopes.find(token.value):
            self.refuse(f"'{token.value}' is defined already, at {other.place}", token.place)
        return token

    def filter(self):
        token = self.new_name_of("a filter")
        routine = self.filter_body("filter", token.value, token.place)
        self.scopes.define(Symbol(token.value, "filter", routine, None, token.place))

    def attribute_of_own(self):
        place, type = self.place, self.type()
        if type not in CUSTOM:
            self.refuse(f"an attribute of one's own of type {type}: BIRD does not take it", place)
        token = self.new_name_of("an attribute")
        self.expect(";")
        self.scopes.define(Symbol(token.value, "attribute", token.value, type, token.place))

    def evaluate(self):
        self.term()
        self.expect(";")

    def table(self):
        while not self.is_next("table"):
            if self.token.kind != "word":
                self.unexpected("'table'")
            self.next()
        self.next()
        if self.token.kind == "name" and self.token.value in ("master4", "master6"):
            self.next()
        else:
            token = self.new_name_of("a table")
            self.scopes.define(Symbol(token.value, "table", token.value, None, token.place))
        self.skip()
        self.expect(";")

    # ---- the router's id

    def do_router_id(self, router, words, rest, place):
        router.router_id = Line(int(self.address()), place)

    def do_number_id(self, router, words, rest, place):
        router.router_id = Line(self.number(), place)

    def do_host(self, router, words, rest, place):
        router.host = self.of_kind("text", "a name").value

    # ---- protocols

    def protocol(self, is_template):
        token = self.next()
        kind = token.value
        if token.kind != "word" or kind not in CLASSES:
            self.refuse(f"'{kind}' is no protocol of BIRD", token.place)
        version = self.take(*VERSIONS.get(kind, ()))
        name = self.new_name_of("a protocol").value if self.token.kind == "name" else self.default_name(kind)
        found = Protocol(kind, name, token.place)
        if self.take("from"):
            symbol = self.known(("template", "protocol"), "template or protocol")
            if symbol.value.kind != kind:
                self.refuse(f"'{symbol.name}' is of another protocol, {symbol.value.kind}", token.place)
            found = symbol.value.copied(name, token.place)
        self.scopes.define(Symbol(name, "template" if is_template else "protocol", found, None, token.place))
        if kind == "bgp":
            self.bgp(found)
        elif kind == "static":
            self.static(found)
        else:
            self.foreign(found, version)
        if not is_template:
            self.reasons.attempt(self.router.take_protocol, found)

    def default_name(self, kind):
        """The name of a protocol that has none: the next number of its kind."""
        while True:
            self.counts[kind] = self.counts.get(kind, 0) + 1
            name = f"{kind}{self.counts[kind]}"
            if self.scopes.find(name) is None:
                return name

    def foreign(self, protocol, version):
        """The braces of a protocol that is passed over; the words right in them are kept."""
        depth, words, is_first = 0, ["ipv6"] * (version in OF_IPV6), True
        self.expect("{")
        while depth or not self.is_next("}"):
            token = self.next()
            if token.kind == "end":
                self.unexpected("'}'")
            if not depth and is_first:
                words.append(token.value)
            is_first = not depth and token.value == ";" and token.kind == "sign"
            depth += (token.kind == "sign") * ((token.value == "{") - (token.value == "}"))
        protocol.end = self.next().place
        protocol.said = {word: Line(True, protocol.place) for word in words}


def obey(text, name):
    """The router that a file is the configuration of, as far as its items are taken, and the reasons why others are
    refused."""
    sys.setrecursionlimit(max(sys.getrecursionlimit(), DEEPEST))
    lexer, unread = Lexer(read_file), Reasons()
    unread.attempt(lexer.take, text, name)
    if unread:
        lexer.found = []
    reader = Reader(lexer, name)
    router, reasons = reader.router, reader.reasons
    reasons.gather(unread)
    reader.read_items()
    if router.asn is None and not reasons:
        reasons.add(refusal(Place(name, 1), "no configuration of a router of BGP: there is no 'protocol bgp'"))
    elif router.is_whole:
        router.finish()
        router.is_whole = not reasons
    return router, reasons


def read_file(name):
    with open(name, "rb") as file:
        return file.read().decode("latin-1")
