"""Makes random filters and functions in the language of BIRD."""
from bgpnet.configs.random_networks import PREFIXES

WELL_KNOWN = ("(65535,65281)", "(65535,65282)", "(65535,65283)", "(65535,666)", "(65535,0)")


class Filters:
    """The filters of one router, with the constants and functions that they use."""

    def __init__(self, draw, maker, asn):
        self.draw, self.maker, self.asn = draw, maker, asn
        self.heads, self.routines, self.names, self.functions, self.counts = [], [], [], [], 0
        self.constants = {"int": [], "pairs": [], "prefixes": [], "numbers": [], "mask": []}
        self.own = ["mark_"] if draw.chance(0.15) else []
        self.heads += [f"attribute int {name};" for name in self.own]
        self.variables = []

    def lines(self):
        return self.heads + self.routines

    def constant(self, kind, text, part=0.3):
        """A text, sometimes by a name."""
        known = self.constants[kind]
        if known and self.draw.chance(part):
            return self.draw.of(known)
        if self.draw.chance(part) and len(known) < 3:
            name = f"{kind.upper()}{len(known) + 1}"
            self.heads.append(f"define {name} = {text};")
            known.append(name)
            return name
        return text

    # ---- literals

    def pair(self):
        if self.draw.chance(0.1):
            return self.draw.of(WELL_KNOWN)
        return f"({65000 + self.draw.number(1, 2)},{self.draw.number(1, 4)})"

    def pairs(self):
        draw = self.draw
        items = [draw.of((self.pair(), f"({65000 + draw.number(1, 2)},*)",
                          f"({65000 + draw.number(1, 2)},{draw.number(1, 2)}..{draw.number(3, 5)})",
                          f"(65001..65002,{draw.number(1, 4)})"))
                 for _ in range(draw.number(1, 3))]
        return self.constant("pairs", f"[{', '.join(items)}]")

    def large(self):
        return f"({self.draw.number(1, 2)}, {self.draw.number(1, 2)}, {self.draw.number(1, 3)})"

    def larges(self):
        draw = self.draw
        items = [draw.of((self.large(), f"({draw.number(1, 2)}, *, *)", f"({draw.number(1, 2)}, 1, 1..2)"))
                 for _ in range(draw.number(1, 2))]
        return f"[{', '.join(items)}]"

    def prefix(self):
        return self.draw.of(self.maker.prefixes if self.draw.chance(0.75) else PREFIXES + ("10.0.0.0/8", "0.0.0.0/0"))

    def prefixes(self):
        draw, items = self.draw, []
        for _ in range(draw.number(1, 3)):
            prefix = self.prefix()
            length = int(prefix.split("/")[1])
            low = draw.number(0, 32)
            items.append(prefix + draw.of(("", "+", "-", f"{{{length},{draw.number(length, 32)}}}",
                                           f"{{{low},{draw.number(low, 32)}}}")))
        return self.constant("prefixes", f"[{', '.join(items)}]")

    def numbers(self, asns):
        draw = self.draw
        one = self.maker.asn_of_set if asns else lambda: draw.number(0, 40)
        items = []
        for _ in range(draw.number(1, 3)):
            low = one()
            items.append(draw.of((str(low), f"{low}..{low + draw.number(0, 6)}")))
        return f"[{', '.join(items)}]"

    def mask(self):
        draw = self.draw
        parts = draw.of(("{0}", "{0} *", "* {0}", "* {0} *", "*", "", "? *", "* ? ?", "{0} {1}", "{0}+ *", "* {1} {0}",
                         "* [{0}, {1}] *", "{2} *", "* {2}", "? ?", "{0} * {1}"))
        low = self.maker.asn_of_set()
        values = str(self.maker.asn_of_set()), str(self.maker.asn_of_set()), f"{low}..{low + draw.number(1, 4)}"
        for at, value in enumerate(values):
            parts = parts.replace("{%d}" % at, value)
        return self.constant("mask", f"[= {parts} =]", 0.15)

    # ---- terms

    def number(self, deep=1):
        draw = self.draw
        if self.variables and draw.chance(0.2):
            return draw.of(self.variables)
        found = draw.of((lambda: str(draw.of((0, 1, 5, 10, 20, 50, 100, 150, 200))), lambda: str(draw.number(0, 30)),
                         lambda: self.constant("int", str(draw.number(1, 200))), lambda: "bgp_med",
                         lambda: "bgp_local_pref", lambda: "bgp_path.len", lambda: "net.len",
                         lambda: "bgp_community.len", lambda: "bgp_path.last", lambda: "bgp_path.first",
                         lambda: draw.of(self.own) if self.own else "preference",
                         lambda: f"{self.pair()}.data"))()
        if deep and draw.chance(0.2):
            sign = draw.of("+-*+/")
            return f"{found} {sign} {self.number(deep - 1) if sign != '/' else draw.number(1, 9)}"
        return found

    def condition(self, direction="import", deep=2):
        """A condition."""
        draw = self.draw
        if deep and draw.chance(0.25):
            parts = [self.condition(direction, deep - 1) for _ in range(draw.number(2, 3))]
            return "".join(part if not at else f" {draw.of(('&&', '||'))} {part}" for at, part in enumerate(parts))
        if deep and draw.chance(0.1):
            return f"!({self.condition(direction, deep - 1)})"
        return draw.of((
            lambda: f"net ~ {self.prefixes()}", lambda: f"net ~ {self.prefixes()}", lambda: f"net !~ {self.prefixes()}",
            lambda: f"net = {self.prefix()}", lambda: f"net ~ {self.prefix()}",
            lambda: f"net.len {draw.of(('=', '>', '<', '>=', '<='))} {draw.of((12, 16, 17, 24))}",
            lambda: f"bgp_path ~ {self.mask()}", lambda: f"bgp_path ~ {self.mask()}",
            lambda: f"bgp_path !~ {self.mask()}", lambda: f"bgp_path ~ {self.numbers(True)}",
            lambda: f"{self.maker.asn_of_set()} ~ bgp_path", lambda: f"bgp_community ~ {self.pairs()}",
            lambda: f"bgp_community !~ {self.pairs()}", lambda: f"{self.pair()} ~ bgp_community",
            lambda: f"bgp_large_community ~ {self.larges()}", lambda: f"{self.large()} ~ bgp_large_community",
            lambda: f"{self.number()} {draw.of(('=', '!=', '<', '>', '<=', '>='))} {self.number()}",
            lambda: f"{self.number(0)} {draw.of(('=', '<', '>'))} {self.number(0)}",
            lambda: f"defined({draw.of(('bgp_med', 'bgp_local_pref', 'bgp_community', 'bgp_path', *self.own))})",
            lambda: f"bgp_origin = {draw.of(('ORIGIN_IGP', 'ORIGIN_EGP', 'ORIGIN_INCOMPLETE'))}",
            lambda: f"source = {draw.of(('RTS_STATIC', 'RTS_BGP'))}", lambda: f"proto ~ \"{draw.of('rtbs')}*\"",
            lambda: f"{self.number(0)} ~ {self.numbers(False)}", lambda: f"{self.called()}" if self.tells() else "true",
            lambda: f"bgp_path.first = {self.maker.asn_of_set()}",
            lambda: f"filter(bgp_community, {self.pairs()}).len > {draw.number(0, 1)}"))()

    def tells(self):
        """Whether there is a function with a value, or one is made."""
        if len(self.functions) < 2 and self.draw.chance(0.4):
            self.function()
        return bool(self.functions)

    def called(self):
        name, count = self.draw.of(self.functions)
        return f"{name}({', '.join(str(self.draw.number(0, 30)) for _ in range(count))})"

    # ---- statements

    def settings(self, direction):
        """A statement that sets an attribute."""
        draw = self.draw
        return draw.of((
            lambda: f"bgp_local_pref = {draw.of((50, 80, 100, 120, 150, 200, 35))};",
            lambda: f"bgp_local_pref = {draw.of((50, 80, 120, 150, 200))};",
            lambda: f"bgp_local_pref = bgp_local_pref {draw.of('+-')} {draw.number(1, 60)};"
            if direction == "import" else f"bgp_med = {draw.number(0, 30)};",
            lambda: f"bgp_med = {draw.of((0, 5, 10, 20, 30))};", lambda: f"bgp_med = {draw.of((0, 5, 10, 20, 30))};",
            lambda: f"bgp_med = {self.number()};",
            lambda: "bgp_med = bgp_med;" if draw.chance(0.3) else "unset(bgp_med);",
            lambda: f"bgp_path.prepend({self.prepended()});", lambda: f"bgp_path.prepend({self.prepended()});",
            lambda: f"bgp_community.add({self.pair()});", lambda: f"bgp_community.add({self.pair()});",
            lambda: f"bgp_community.delete({draw.of((self.pair(), self.pairs()))});",
            lambda: f"bgp_community.filter({self.pairs()});",
            lambda: draw.of(("bgp_community.empty;", "bgp_community = -empty-;", "unset(bgp_community);")),
            lambda: f"bgp_large_community.add({self.large()});",
            lambda: f"bgp_large_community.delete({self.larges()});",
            lambda: f"bgp_origin = {draw.of(('ORIGIN_IGP', 'ORIGIN_EGP', 'ORIGIN_INCOMPLETE'))};",
            lambda: f"{self.own[0]} = {self.number()};" if self.own else f"bgp_local_pref = {draw.number(90, 110)};",
            lambda: f"preference = {draw.of((90, 105, 110))};" if draw.chance(0.3) and direction == "import"
            else f"bgp_med = {draw.number(0, 9)};",
            lambda: f"bgp_path.delete({self.maker.asn_of_set()});" if draw.chance(0.08) else
            "bgp_path.delete([64990..64999]);"))()

    def prepended(self):
        return self.asn if self.draw.chance(0.7) else self.draw.of((64999, 64998, self.maker.asn_of_set()))

    def statement(self, direction, deep):
        """A statement, that ends the filter sometimes."""
        draw = self.draw
        if deep and draw.chance(0.5):
            return draw.of((self.conditional, self.conditional, self.conditional, self.case, self.loop,
                            self.block))(direction, deep - 1)
        if draw.chance(0.14):
            return draw.of(("accept;", "reject;", "accept;"))
        if draw.chance(0.04):
            return f"print \"note\", {self.number(0)};"
        if self.functions and draw.chance(0.08):
            return f"{self.called()};"
        return self.settings(direction)

    def conditional(self, direction, deep):
        found = f"if {self.condition(direction)} then {self.inner(direction, deep)}"
        return found + f" else {self.inner(direction, deep)}" if self.draw.chance(0.35) else found

    def inner(self, direction, deep):
        if self.draw.chance(0.35):
            return self.block(direction, deep)
        return self.statement(direction, 0)

    def block(self, direction, deep):
        known = list(self.variables)
        parts = [self.statement(direction, deep) for _ in range(self.draw.number(1, 2))]
        self.variables = known
        return "{ " + " ".join(parts) + " }"

    def case(self, direction, deep):
        draw = self.draw
        if draw.chance(0.3):
            arms = [f"{origin}: {self.statement(direction, 0)}" for origin in ("ORIGIN_IGP", "ORIGIN_EGP")]
            subject = "bgp_origin"
        else:
            subject = draw.of(("net.len", "bgp_path.len", "bgp_med", "bgp_local_pref"))
            values = sorted({draw.number(0, 30) for _ in range(draw.number(1, 3))})
            arms = [f"{draw.of((str(value), f'{value}..{value + draw.number(1, 8)}'))}: {self.statement(direction, 0)}"
                    for value in values]
        if draw.chance(0.6):
            arms.insert(draw.number(0, len(arms)), f"else: {self.statement(direction, 0)}")
        return f"case {subject} {{ {' '.join(arms)} }}"

    def loop(self, direction, deep):
        draw = self.draw
        if draw.chance(0.5):
            return f"for int one in bgp_path do {{ if one {draw.of(('=', '>', '<'))} {self.maker.asn_of_set()} then " \
                   f"{self.settings(direction)} }}"
        return f"for pair one in bgp_community do if one ~ {self.pairs()} then {self.settings(direction)}"

    def body(self, direction, deep):
        """The braces of a filter."""
        draw, known = self.draw, self.variables
        self.variables, parts = [], []
        for _ in range(draw.number(1, 3)):
            if draw.chance(0.12):
                name = f"n{len(self.variables)}_"
                parts.append(f"int {name} = {self.number()};")
                self.variables.append(name)
            parts.append(self.statement(direction, deep))
        if draw.chance(0.94):
            parts.append("accept;" if draw.chance(0.95) else "return true;")
        self.variables = known
        return "{ " + " ".join(parts) + " }"

    def named(self, direction):
        """The name of a filter of a direction, that is made unless there are some."""
        known = [name for name, of in self.names if of == direction]
        if known and self.draw.chance(0.4):
            return self.draw.of(known)
        name = f"{direction}_{len(self.names) + 1}"
        self.routines.append(f"filter {name} {self.body(direction, 2)}")
        self.names.append((name, direction))
        return name

    def function(self):
        """A function with a value, that may change the route."""
        draw, known = self.draw, self.variables
        self.counts += 1
        name, count = f"fun{self.counts}", draw.number(0, 2)
        self.functions, made = [], self.functions
        self.variables = [f"p{at}" for at in range(count)]
        head = "; ".join(f"int {one}" for one in self.variables)
        parts = [self.statement("import", 1) for _ in range(draw.number(0, 1))]
        parts.append(f"if {self.condition()} then return {draw.of(('true', 'false'))};")
        if draw.chance(0.9):
            parts.append(f"return {draw.of(('true', 'false', self.condition()))};")
        self.routines.append(f"function {name}({head}) {{ {' '.join(parts)} }}")
        self.functions, self.variables = made + [(name, count)], known
