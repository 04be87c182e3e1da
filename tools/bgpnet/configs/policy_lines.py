"""The lines of lists and route-maps of a configuration of FRR."""
from bgpnet.configs.blocks import NOT_TAKEN, Blocks
from bgpnet.configs.communities import STALE, read_community, read_large, sorted_set
from bgpnet.configs.lists import Block, CommunityList, Entry, List, mask_of
from bgpnet.configs.regular import BadExpression, expression, path_expression
from bgpnet.configs.route import RouteMap
from bgpnet.configs.router import Line
from bgpnet.configs.routes import MOST, ORIGINS
from bgpnet.configs.syntax import address_of, number_of, prefix_of
from bgpnet.network import GREATEST_ASN

LARGE_WORDS = {"large-community": read_large, "community": read_community}


def form_of(text):
    """Whether the text of an entry of an access-list or a prefix-list is `any`, a prefix, an address, or one with a
    wildcard."""
    return text if text == "any" else "prefix" if isinstance(text, tuple) or "/" in text else len(text.split())


class PolicyLines(Blocks):
    """Obeys lines of lists and route-maps."""

    # ---- lists

    def list_of(self, kind, name, maker=List):
        return self.router.lists[kind].setdefault(name, maker(kind, name, self.place))

    def numbered(self, words, at):
        """Whether an entry permits, its number or None, and the words behind."""
        number = None
        if words[at] == "seq":
            number, at = int(words[at + 1]), at + 2
        return words[at] == "permit", number, words[at + 1:]

    def do_remark(self, words, line):
        self.list_of(*("prefix-list", words[2]) if words[0] == "ip" else ("access-list", words[1]))

    def do_access(self, words, line):
        permits, number, rest = self.numbered(words, 2)
        block, text = self.block_of(rest)
        found = self.list_of("access-list", words[1])
        entry = Entry(permits, block, text, self.place)
        self.check_form(found, number, text, line)
        same, exact = found.double(permits, text), found.double(permits, text + " exact-match")
        doubles = [other for other in (same if same != number else None, exact) if other is not None]
        if not doubles:
            found.add(number, entry)
        elif prefix_of(rest[0]) and prefix_of(rest[0])[0] != block.address:
            self.refuse(f"'{line}': {NOT_TAKEN}: {found.entries[doubles[0]].place} says the same")
        else:
            self.router.warn(self.place, f"'{line}': FRR takes it for a double of "
                                         f"{found.entries[doubles[0]].place}, and drops it")

    def check_form(self, found, number, text, line):
        """Refuses an entry of a number that another form of entry has: of that FRR may leave something."""
        former = found.entries.get(number)
        if former and form_of(former.text) != form_of(text):
            self.refuse(f"'{line}': {former.place} says something of another form by this number: leave one out")

    @staticmethod
    def block_of(rest):
        """What an entry of an access-list looks for, and the text that tells doubles."""
        if rest == ["any"]:
            return Block(0, 0, 0, 32), "any"
        if prefix := prefix_of(rest[0]):
            address, length = prefix
            address &= mask_of(length)
            most = length if rest[1:] else 32
            return Block(address, mask_of(length), length, most), " ".join([f"{address}/{length}", *rest[1:]])
        numbers = [address_of(word) for word in rest if word != "host"]
        wildcard = numbers[1] if len(numbers) == 2 else 0
        return Block(numbers[0], MOST & ~wildcard, 0, 32), " ".join(map(str, numbers))

    def do_prefixes(self, words, line):
        permits, number, rest = self.numbered(words, 3)
        block, text, has_hosts = self.span_of(rest, line)
        found = self.list_of("prefix-list", words[2])
        entry = Entry(permits, block, text, self.place)
        self.check_form(found, number, text, line)
        other = found.double(permits, text)
        if other is None or other == number:
            found.add(number, entry)
        elif has_hosts:
            self.refuse(f"'{line}': {NOT_TAKEN}: {found.entries[other].place} says the same")

    def span_of(self, rest, line):
        """The prefixes that an entry of a prefix-list has, the text that tells doubles, and whether bits of hosts are
        set."""
        if rest == ["any"]:
            return Block(0, 0, 0, 32), "any", False
        (address, length), bounds = prefix_of(rest[0]), dict(zip(rest[1::2], map(int, rest[2::2])))
        if not length <= bounds.get("ge", length) <= bounds.get("le", 32) or bounds.get("le", length) < length:
            self.refuse(f"'{line}': {NOT_TAKEN}: it has to be length <= ge <= le")
        bounds = {word: bound for word, bound in bounds.items() if bound}  # to FRR a 0 is none
        most = bounds.get("le", 32 if "ge" in bounds else length)
        block = Block(address & mask_of(length), mask_of(length), bounds.get("ge", length), most)
        return block, (block.address, length, bounds.get("ge"), bounds.get("le")), block.address != address

    def expression(self, text, make, line):
        try:
            return make(text)
        except BadExpression as why:
            return self.refuse(f"'{line}': the expression has {why}")

    def do_paths(self, words, line):
        permits, number, _ = self.numbered(words, 4)
        text = " ".join(line.split()[5 if number is None else 7:])
        found = self.list_of("as-path", words[3])
        self.add_once(found, number, Entry(permits, self.expression(text, path_expression, line), text, self.place))

    def add_once(self, found, number, entry):
        """Adds an entry, unless one says the same: FRR drops it in silence."""
        if found.double(entry.permits, entry.text) is None:
            found.add(number, entry)

    def do_communities(self, words, line):
        kind = words[1][:-len("-list")]
        at = 3 if words[2].isdecimal() else 4
        name, is_standard = words[at - 1], words[2] == "standard" or words[2].isdecimal() and int(words[2]) < 100
        permits, number, rest = self.numbered(words, at)
        if kind == "large-community" and at == 4 and name.isdigit():
            self.refuse(f"'{line}': {NOT_TAKEN}: a number is no name here")
        found = self.list_of(kind, name, CommunityList)
        if found.entries and callable(next(iter(found.entries.values())).value) == is_standard:
            self.refuse(f"'{line}': {NOT_TAKEN}: {found.place} is a list of the other kind")
        if is_standard:
            value = sorted_set(self.communities(rest, LARGE_WORDS[kind], line))
            text = value
        else:
            text = " ".join(rest)
            value = self.expression(text, expression, line)
        self.add_once(found, number, Entry(permits, value, text, self.place))

    def communities(self, words, read, line):
        found = []
        for word in words:
            one = read(word)
            if one is None:
                self.refuse(f"'{line}': {NOT_TAKEN}: '{word}' is no community")
            found.append(one)
        return tuple(found)

    # ---- route-maps

    def do_route_map(self, words, line):
        found = self.router.maps.setdefault(words[1], RouteMap(words[1], self.place))
        self.entry = found.entry(int(words[3]), words[2] == "permit", self.place)
        self.block = "route-map"

    def do_next(self, words, line):
        self.check_permits(line)
        self.entry.next = 0

    def check_permits(self, line):
        if not self.entry.permits:
            self.refuse(f"'{line}': {NOT_TAKEN} in an entry that denies")

    def do_goto(self, words, line):
        self.check_permits(line)
        number = int(words[-1])
        if number <= self.entry.number:
            self.refuse(f"'{line}': {NOT_TAKEN}: it goes back")
        self.entry.next = number

    def do_call(self, words, line):
        if words[1] == self.entry.map_name:
            self.refuse(f"'{line}': {NOT_TAKEN}: the map calls itself")
        self.entry.call = Line(words[1], self.place)

    def do_match_list(self, words, line):
        if words[1:3] == ["ip", "address"]:
            kind = "prefix-list" if len(words) == 5 else "access-list"
            value = words[-1]
        else:
            kind = words[1]
            value = words[2] if kind == "as-path" else (words[2], len(words) == 4)
        self.entry.matches[kind] = value, self.place

    def do_match_value(self, words, line):
        if words[1] == "metric" and int(words[2]) == 0:
            self.refuse(f"'{line}': {NOT_TAKEN}, and the entry then fits everything")
        value = ORIGINS.index(words[2]) if words[1] == "origin" else int(words[2])
        self.entry.matches[words[1]] = value, self.place

    def changed(self, word, line, takes_nothing):
        """The sign and the number of a word that sets or changes a number."""
        sign = word[0] if word[0] in "+-" else ""
        number = number_of(word[len(sign):])
        if number is None or number > MOST:
            self.refuse(f"'{line}': {NOT_TAKEN}: '{word}' is no number from 0 to {MOST}")
        if sign and not number and not takes_nothing:
            self.refuse(f"'{line}': {NOT_TAKEN}: nothing is added")
        return sign, number

    def set(self, kind, value, line, form=0):
        if not self.entry.set(kind, form, value, self.place):
            self.router.warn(self.place, f"'{line}': behind another form of it FRR drops both")

    def do_set_metric(self, words, line):
        if words[2].lstrip("+-") == "rtt":
            self.refuse(f"'{line}': the metric depends on time")
        sign, number = self.changed(words[2], line, False)
        self.set("metric", (sign, number), line, ("", "+", "-").index(sign))

    def do_set_preference(self, words, line):
        self.set("local-preference", self.changed(words[2], line, True), line)

    def do_set_weight(self, words, line):
        self.set("weight", int(words[2]), line)

    def numbers(self, words, line):
        numbers = tuple(map(number_of, words))
        if None in numbers or not all(1 <= number <= GREATEST_ASN for number in numbers):
            self.refuse(f"'{line}': {NOT_TAKEN}: AS numbers are 1 to {GREATEST_ASN}")
        return numbers

    def do_set_prepend(self, words, line):
        self.set("prepend", self.numbers(words[3:], line), line)

    def do_set_last(self, words, line):
        self.set("prepend", int(words[4]), line, 1)

    def do_set_exclude(self, words, line):
        self.set("exclude", self.numbers(words[3:], line), line)

    def do_set_origin(self, words, line):
        self.set("origin", ORIGINS.index(words[2]), line)

    def do_set_communities(self, words, line):
        kind, rest = words[1], words[2:]
        if rest == ["none"]:
            self.set(kind, ((), False), line)
            return
        is_large = kind == "large-community"
        adds = [word for word in rest if word and "additive".startswith(word)]
        numbers = [self.full(word, is_large) for word in rest if word not in adds]
        if not numbers or is_large and adds and (rest[-1] != "additive" or len(adds) > 1):
            self.refuse(f"'{line}': {NOT_TAKEN}, or it is not read: 'additive' stands behind communities")
        value = sorted_set(self.communities(numbers, LARGE_WORDS[kind], line))
        if STALE in value:
            self.refuse(f"'{line}': llgr-stale: FRR likes such a route less than any other, and of two such "
                        "ones it takes that which came first")
        self.set(kind, (value, bool(adds)), line, 1)

    @staticmethod
    def full(word, is_large):
        """A community's name in full, as `set community` takes it shortened."""
        if not is_large and word[:1].isalpha():
            for name, least in (("internet", 1), ("local-AS", 1), ("no-advertise", 4), ("no-export", 4),
                                ("graceful-shutdown", 1), ("blackhole", 1)):
                if len(word) >= least and name.startswith(word):
                    return name
        return word

    def do_set_delete(self, words, line):
        self.set(words[1], words[2], line)
