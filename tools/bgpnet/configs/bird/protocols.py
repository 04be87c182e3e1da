"""The grammar of protocols and their channels: what is said in their braces (BIRD's manual, chapters 3 and 6).

    protocol  = ("protocol" | "template") KIND [NAME] ["from" NAME] "{" { option ";" } "}"
    bgp       = "local" [ADDRESS] {"port" NUM | "as" NUM} | "local" "role" ROLE
              | "neighbor" [ADDRESS] {"port" NUM | "as" NUM | "external" | "internal"} | channel | a row of the tables
    static    = channel | "route" PREFIX KIND ["{" {statement} "}"] | a row of the tables
    channel   = ("ipv4" | "ipv6" | ..) ["{" { option ";" } "}"]
    policy    = ("import" | "export") ("all" | "none" | "where" term | "filter" (NAME | {TYPE NAME ";"} block))
"""
from bgpnet.configs.bird import options
from bgpnet.configs.bird.nodes import Node, Routine
from bgpnet.configs.bird.roles import OTHERS
from bgpnet.configs.bird.statements import Statements
from bgpnet.configs.bird.tokens import written
from bgpnet.configs.bird.values import MOST_HALF
from bgpnet.configs.router import Line

# What the names of channels begin with.
FAMILIES = ("ipv4", "ipv6", "vpn4", "vpn6", "flow4", "flow6", "mpls")
KINDS = {"blackhole": 2, "drop": 2, "unreachable": 3, "reject": 3, "prohibit": 4}
PORT = 179


class Channel:
    """What a channel's lines say, and where they end. A policy is True for `all`, False for `none`, or a filter;
    `is_own` says whether a line of this protocol names the channel, not only a template's."""

    def __init__(self, place):
        self.place, self.end, self.is_own, self.said, self.policies = place, place, True, {}, {}

    def copied(self):
        """The same in a protocol that is made from this one's."""
        found = Channel(self.place)
        found.end, found.is_own = self.end, False
        found.said, found.policies = dict(self.said), dict(self.policies)
        return found


class Protocol:
    """What a protocol's lines say, or a template's, and whether all of them are taken."""

    def __init__(self, kind, name, place):
        self.kind, self.name, self.place, self.end = kind, name, place, place
        self.said, self.channels, self.routes, self.is_whole = {}, {}, [], True

    def value(self, words, default=None):
        line = self.said.get(words)
        return default if line is None else line.name

    def copied(self, name, place):
        """The same under another name."""
        found = Protocol(self.kind, name, place)
        found.said, found.routes, found.is_whole = dict(self.said), list(self.routes), self.is_whole
        found.channels = {family: channel.copied() for family, channel in self.channels.items()}
        return found


class Protocols(Statements):
    """Reads the braces of protocols."""

    def options(self, protocol, table, special):
        """The options of a protocol from its brace on."""
        self.expect("{")
        while not self.is_next("}"):
            if self.take(";"):
                continue
            self.try_option(protocol, protocol, table, special)
        protocol.end = self.next().place

    def try_option(self, protocol, owner, table, special):
        """One option with its semicolon; without it the protocol is not whole."""
        def read():
            self.option(owner, table, special)
            self.expect(";")

        if self.token.kind == "end":
            self.unexpected("'}'")
        if not self.try_to_read(read, self.skip_option):
            protocol.is_whole = False

    def option(self, owner, table, special):
        """One option, by a method of its own, or by its row of a table."""
        token = self.token
        if token.kind == "word" and token.value in special:
            special[token.value](owner)
            return
        found = options.match(self, table)
        if found is None:
            self.refuse(f"'{self.line_text()}' is no option that is known here")
        option, count = found
        words = " ".join(self.next().value for _ in range(count))
        self.obey(owner, option, words, token.place)

    def line_text(self):
        """The words up to the end of an option, as a refusal shows them."""
        words = []
        while len(words) < 6 and not self.is_next(";", "{", "}", more=len(words)) and \
                self.peek(len(words)).kind != "end":
            words.append(written(self.peek(len(words))))
        return " ".join(words) or str(self.token.value)

    def obey(self, owner, option, words, place):
        action, rest = option.action, [word for word in option.words if word.isupper() or word == ","]
        if action in options.REFUSED:
            self.refuse(f"'{words}': {options.REFUSED[action]}", place)
        if action in ("ignored", "warned"):
            self.skip_value(rest)
            if action == "warned":
                self.warn(place, f"'{words}' is not read")
        elif action in ("value", "if_on"):
            value = self.value(rest)
            if action == "if_on" and value:
                self.refuse(f"'{words}': {options.why_off(words)}", place)
            if words == "preference" and value > MOST_HALF:
                self.refuse(f"a preference of {value}: BIRD takes at most {MOST_HALF}", place)
            owner.said[words] = Line(value, place)
        else:
            getattr(self, "do_" + action)(owner, words, rest, place)

    # ---- values

    def value(self, rest):
        """The value of an option."""
        if rest[:1] == ["BOOL"] or not rest:
            return self.switch_value()
        return {"NUM": self.number, "TEXT": lambda: self.of_kind("text", "a text").value,
                "ADDRESS": lambda: int(self.address())}[rest[0]]()

    def skip_value(self, rest):
        if rest[:1] == ["BOOL"]:
            self.switch_value()
        elif rest and rest[0] != "REST":
            for word in rest:
                self.expect(",") if word == "," else self.value([word])
        else:
            self.skip()

    def skip(self):
        """Passes what stands up to the end of an option, with its braces."""
        depth = 0
        while depth or not self.is_next(";", "}"):
            if self.token.kind == "end":
                self.unexpected("';'")
            depth += self.is_next("{") - self.is_next("}")
            self.next()

    def switch_value(self):
        """A switch: silence means agreement."""
        if self.is_next(";", "}"):
            return True
        if word := self.take(*options.ON, *options.OFF):
            return word in options.ON
        return bool(self.number())

    def constant_of(self, type, what):
        """The value of a name, or of a term in brackets, that is a constant of a type."""
        place = self.place
        found = self.in_brackets() if self.is_next("(") else self.named(self.token)
        if not found.is_constant or found.type != type:
            self.refuse(f"no constant {what}", place)
        return found.args[0]

    def number(self):
        """A number, the name of one, or a term in brackets."""
        if self.is_next("(") or self.token.kind == "name":
            return self.constant_of("int", "number")
        return self.of_kind("number", "a number").value

    def address(self):
        if self.token.kind == "name":
            return self.constant_of("ip", "address")
        return self.of_kind("address", "an address").value

    def constant_prefix(self):
        return self.constant_of("prefix", "prefix") if self.token.kind == "name" else self.prefix()

    # ---- rows that are more than a value

    def do_as4(self, owner, words, rest, place):
        if not self.switch_value():
            self.refuse(f"'{words} off': {options.REFUSED['narrow']}", place)

    def do_own(self, owner, words, rest, place):
        """One's own AS in a path: none at all is the default."""
        if not rest or self.number():
            self.refuse(f"'{words}': {options.REFUSED['loops']}", place)

    def do_restart(self, owner, words, rest, place):
        """Routes that outlast a restart: the neighbor keeps them, unless it says off."""
        if not self.take("aware"):
            owner.said[words] = Line(self.switch_value(), place)

    def do_direct(self, owner, words, rest, place):
        owner.said["multihop"] = Line(0, place)

    def do_multihop(self, owner, words, rest, place):
        owner.said["multihop"] = Line(64 if self.is_next(";") else self.number(), place)

    def do_source(self, owner, words, rest, place):
        owner.said["source"] = Line(int(self.address()), place)

    def role(self, owner, place):
        """What stands behind `local`: `role` and a role, words that are no keywords."""
        self.next()
        token = self.next()
        if token.value not in OTHERS:
            self.refuse(f"'{token.value}' is no role", token.place)
        owner.said["role"] = Line(token.value, place)

    def do_table(self, owner, words, rest, place):
        name = self.known(("table",), "table").name
        if name != "master4":
            owner.said["table"] = Line(name, place)

    def do_limit(self, owner, words, rest, place):
        if self.take("off"):
            return
        self.number()
        if self.take("action"):
            self.expect("warn", "block", "restart", "disable")
        self.warn(place, f"'{words}' is not read: it is taken as never reached")

    def do_hop(self, owner, words, rest, place):
        value = self.address() if rest == ["ADDRESS"] else self.switch_value()
        if value:
            owner.said["hop"] = Line(words, place)

    def do_gateway(self, owner, words, rest, place):
        owner.said["gateway"] = Line(words.split()[-1] if self.is_next(";") else self.next().value, place)

    def do_policy(self, owner, words, rest, place):
        owner.policies[words] = Line(self.policy(words), place)

    def policy(self, direction):
        token = self.token
        if self.take("all", "none"):
            return token.value == "all"
        if self.is_next("where"):
            return self.where()
        self.expect("filter")
        if self.token.kind == "name":
            return self.known(("filter",), "filter").value
        return self.filter_body(f"{direction} filter", None, token.place)

    # ---- channels

    def channel(self, protocol, table):
        """A channel: its family, and what stands in its braces."""
        token = self.next()
        family = token.value
        while self.is_next("multicast", "mpls", "sadr"):
            family += " " + self.next().value
        own = protocol.channels.get(family)
        if own is not None and own.is_own:
            self.refuse(f"a second channel {family}: BIRD does not take it", token.place)
        channel = protocol.channels[family] = own or Channel(token.place)
        channel.is_own, channel.end = True, token.place
        if self.take("{"):
            while not self.is_next("}"):
                self.try_option(protocol, channel, table, {})
            channel.end = self.next().place

    # ---- bgp and static

    def bgp(self, protocol):
        channels = dict.fromkeys(FAMILIES, lambda owner: self.channel(owner, options.BGP_CHANNEL))
        self.options(protocol, options.BGP, {**channels, "neighbor": self.neighbor, "local": self.local})

    def local(self, protocol):
        place = self.next().place
        if self.token.value == "role":
            self.role(protocol, place)
            return
        if self.token.kind == "address6":
            protocol.said["ipv6"] = Line(self.next().value, self.place)
        elif self.token.kind == "address" or self.token.kind == "name":
            protocol.said["source"] = Line(int(self.address()), self.place)
        self.numbers(protocol, "local as")

    def neighbor(self, protocol):
        place = self.next().place
        if self.is_next("range"):
            self.refuse(f"'neighbor range': {options.REFUSED['dynamic']}", place)
        if self.token.kind in ("address", "name", "address6"):
            if "neighbor" in protocol.said:
                self.refuse("a second neighbor: BIRD does not take it")
            if self.token.kind == "address6":
                protocol.said["ipv6"] = Line(self.token.value, place)
                protocol.said["neighbor"] = Line(None, place)
                self.next()
                if self.take("%"):
                    self.next()  # the interface
            else:
                protocol.said["neighbor"] = Line(int(self.address()), place)
        self.numbers(protocol, "neighbor as")

    def numbers(self, protocol, kind):
        """What stands behind the address of one's own, or of a neighbor."""
        while not self.is_next(";"):
            place = self.place
            word = self.expect("as", "port", "external", "internal").value
            if word == "as":
                protocol.said[kind] = Line(self.number(), place)
            elif word == "port":
                port = self.number()
                if port != PORT:
                    self.refuse(f"port {port}: whether the other end listens there is not known here", place)
            else:
                protocol.said["side"] = Line(word, place)

    def static(self, protocol):
        channels = dict.fromkeys(FAMILIES, lambda owner: self.channel(owner, options.CHANNEL))
        self.options(protocol, options.STATIC, channels)

    def do_route(self, protocol, words, rest, place):
        """A route, and the statements in its braces."""
        if self.token.kind == "address6":
            protocol.said["ipv6"] = Line(self.token.value, place)
            self.skip()
            return
        prefix = self.constant_prefix()
        token = self.next()
        if token.value in ("via", "recursive"):
            self.refuse(f"'route {prefix} {token.value}': whether its next hop is reached is not known here", place)
        if token.kind != "word" or token.value not in KINDS:
            self.refuse(f"'{token.value}' stands where BIRD takes blackhole, unreachable or prohibit", token.place)
        body = self.route_body(place) if self.take("{") else None
        protocol.routes.append((prefix, KINDS[token.value], body, place))

    def route_body(self, place):
        routine, found = Routine("route", None, place), []
        self.enter(routine)
        while not self.take("}"):
            found.append(self.statement())
        self.leave()
        routine.body = Node("block", [found], None, place)
        return routine
