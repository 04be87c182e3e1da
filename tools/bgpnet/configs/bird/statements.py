"""The grammar of statements, of filters and of functions (BIRD's manual, chapter 5).

    filter    = "filter" NAME {TYPE NAME ";"} block | "filter" {TYPE NAME ";"} block | "where" term
    function  = "function" NAME "(" [TYPE NAME {";" TYPE NAME}] ")" {TYPE NAME ";"} block
    block     = "{" { statement | TYPE NAME ["=" term] ";" } "}"
    statement = block | "if" term "then" statement ["else" statement]
              | "case" term "{" { (item {"," item} ":" | "else:") { statement } } "}"
              | "for" [TYPE] NAME "in" term "do" statement
              | ("accept" | "reject" | "print" | "printn") {term ","} [term] ";"
              | "return" term ";" | (NAME | ATTRIBUTE) "=" term ";" | NAME "(" [term {"," term}] ")" ";"
              | ATTRIBUTE "." ("prepend" | "add" | "delete" | "filter") "(" term ")" ";"
              | ATTRIBUTE "." "empty" ";" | "unset" "(" ATTRIBUTE ")" ";"
    TYPE      = "int" | "bool" | "ip" | "prefix" | "rd" | "pair" | "quad" | "ec" | "lc" | "string" | "bgpmask"
              | "bgppath" | "clist" | "eclist" | "lclist" | ("int" | "pair" | .. ) "set"
"""
from bgpnet.configs.bird import attributes
from bgpnet.configs.bird.grammar import Terms
from bgpnet.configs.bird.nodes import Node, Routine, Symbol
from bgpnet.configs.bird.operations import CHANGES, ELEMENTS, SCALARS, SETS, wrong_type, wrong_types
from bgpnet.configs.bird.sets import Items
from bgpnet.configs.bird.values import EMPTY


class Statements(Terms):
    """Reads filters and functions."""

    # ---- routines

    def filter_body(self, kind, name, place):
        """A filter from behind its name on, or one without a name."""
        routine = Routine(kind, name, place)
        self.enter(routine)
        self.read_body(routine)
        return routine

    def read_body(self, routine):
        """The braces of a filter or a function, with variables by the old way in front: these are undefined."""
        while self.type_ahead():
            self.scopes.define(self.variable(self.type()))
            self.expect(";")
        routine.body = self.block(False)
        self.leave()

    def where(self):
        """`where TERM`, as a filter."""
        place = self.expect("where").place
        routine = Routine("where", None, place)
        self.enter(routine)
        term = self.condition()
        self.leave()
        routine.body = Node("if", [term, Node("accept", [[]], None, place), Node("reject", [[]], None, place)], None,
                            place)
        return routine

    def function(self):
        """A function from behind the word on."""
        token = self.token
        name = self.new_name("a function").value
        routine = Routine("function", name, token.place)
        self.scopes.define(Symbol(name, "function", routine, None, token.place))
        self.enter(routine)
        self.expect("(")
        while not self.is_next(")"):
            if routine.parameters:
                self.expect(";")
            routine.parameters.append(self.scopes.define(self.variable(self.type())).type)
        self.expect(")")
        self.read_body(routine)
        return routine

    def enter(self, routine):
        self.routine, self.above = routine, self.routine
        self.scopes.levels.append({})

    def leave(self):
        self.scopes.levels.pop()
        self.routine = self.above

    # ---- types and variables

    def type_ahead(self):
        return self.token.kind == "word" and self.token.value in SCALARS and not self.is_next("(", more=1)

    def type(self):
        token = self.next()
        if token.kind != "word" or token.value not in SCALARS:
            self.refuse(f"'{token.value}' is no type of a variable", token.place)
        if self.is_next("set") and token.value in SETS:
            self.next()
            return "prefix set" if token.value == "prefix" else "set"
        return token.value

    def variable(self, type):
        """The variable that the next name is to be defined as, with where its value is kept."""
        token, slot = self.new_name("a variable"), self.routine.size
        self.routine.size += 1
        return Symbol(token.value, "variable", slot, type, token.place)

    # ---- statements

    def block(self, has_scope=True):
        """Statements in braces. Those of a routine share the names of its parameters."""
        place, found = self.expect("{").place, []
        if has_scope:
            self.scopes.levels.append({})
        while not self.take("}"):
            if self.token.kind == "end":
                self.unexpected("'}'")
            found.append(self.statement_or_variable())
        if has_scope:
            self.scopes.levels.pop()
        return Node("block", [found], None, place)

    def statement_or_variable(self):
        if self.is_next("{"):
            return self.bare_block()
        if not self.type_ahead():
            return self.statement()
        place, symbol = self.place, self.variable(self.type())
        term = self.term() if self.take("=") else None
        self.expect(";")
        self.scopes.define(symbol)
        if term is not None:
            self.check_type("VAR_INIT", symbol.type, term)
        return Node("declare", [symbol.value, symbol.type, term], None, place)

    def bare_block(self):
        """Braces of their own. BIRD keeps the room of their variables, and then mixes up what a loop keeps."""
        found = self.block()
        if any(node.op == "declare" for node in found.args[0]):
            self.routine.kept = found.place
        return found

    def check_type(self, op, want, term):
        if term.type and term.type != want and not (want == "quad" and term.type == "ip"):
            self.refuse(wrong_type(op, 1, want, term.type), term.place)

    def statement(self):
        token = self.token
        words = {"{": self.block, "if": self.conditional, "case": self.switch, "for": self.loop,
                 "return": self.returned, "accept": self.ending, "reject": self.ending, "print": self.ending,
                 "printn": self.ending, "unset": self.unset}
        if token.kind in ("word", "sign") and token.value in words:
            return words[token.value]()
        if token.kind == "word" and (token.value in attributes.STATIC or token.value in attributes.DYNAMIC):
            return self.of_attribute()
        if token.kind == "name":
            return self.of_name()
        return self.unexpected("a statement")

    def condition(self):
        term = self.term()
        if why := wrong_types("CONDITION", [term]):
            self.refuse(why, term.place)
        return term

    def conditional(self):
        place = self.next().place
        term = self.condition()
        self.expect("then")
        then = self.statement()
        return Node("if", [term, then, self.statement() if self.take("else") else None], None, place)

    def switch(self):
        place = self.next().place
        term, arms, bodies = self.term(), [], []
        self.expect("{")
        while not self.take("}"):
            if self.take("else:"):
                items = [(None, None)]
            else:
                items = self.items(False)
                self.set_of(items)
                self.expect(":")
            body, arm = [], self.place
            self.scopes.levels.append({})
            while not self.arm_ends():
                body.append(self.statement_or_variable())
            self.scopes.levels.pop()
            arms += [(low, high, len(bodies)) for low, high in items]
            bodies.append(Node("block", [body], None, arm))
        kinds = [(low, high) for low, high, _ in arms if low is not None]
        if kinds:
            self.set_of(kinds)
        return Node("case", [term, Items(arms), bodies], None, place)

    def arm_ends(self):
        """Whether no statement of this arm follows: an arm, or the end."""
        return self.token.kind in ("number", "address", "end") or self.is_next("}", "else:", "(") or \
            self.token.kind == "word" and self.token.value.startswith(("ORIGIN_", "RT", "SCOPE_", "NET_", "ROA_"))

    def loop(self):
        place = self.next().place
        if self.routine.kept:
            self.refuse(f"a loop behind braces that have a variable, at {self.routine.kept}: BIRD mixes their values "
                        "up", place)
        is_new = self.type_ahead()
        symbol = self.variable(self.type()) if is_new else self.known(("variable",), "variable")
        self.expect("in")
        term = self.term()
        self.scopes.levels.append({})
        if is_new:
            self.scopes.define(symbol)
        if term.type and term.type not in ELEMENTS:
            self.refuse(f"the value behind 'in' must be a path or a list, and is {term.type}", term.place)
        if term.type and ELEMENTS[term.type] != symbol.type:
            self.refuse(f"the variable '{symbol.name}' must be {ELEMENTS[term.type]}, and is {symbol.type}", place)
        self.expect("do")
        body = self.statement()
        self.scopes.levels.pop()
        return Node("for", [symbol.value, symbol.type, term, body], None, place)

    def terms(self):
        """Terms up to the end of a statement; a comma may stand behind the last."""
        found = []
        while not self.take(";"):
            found.append(self.term())
            if not self.is_next(";"):
                self.expect(",")
        return found

    def ending(self):
        token = self.next()
        return Node(token.value, [self.terms()], None, token.place)

    def returned(self):
        place = self.next().place
        term = self.term()
        self.expect(";")
        return Node("return", [term], None, place)

    def unset(self):
        place = self.next().place
        self.expect("(")
        token = self.next()
        if token.kind != "word" or token.value not in attributes.DYNAMIC:
            self.refuse(f"'{token.value}' is no attribute that can be unset", token.place)
        self.refuse_attribute(token)
        self.expect(")")
        self.expect(";")
        return Node("unset", [token.value], None, place)

    def of_attribute(self):
        """A statement that begins with an attribute."""
        own = self.named_attribute()
        if self.take("="):
            return self.assigned(own)
        if own.args[0] in attributes.STATIC:
            self.unexpected("'='")
        self.expect(".")
        return self.changed(own)

    def assigned(self, target):
        """What stands behind `=`: the target takes the value of a term."""
        if target.op == "attribute" and not attributes.STATIC.get(target.args[0], (None, True))[1]:
            self.refuse(f"'{target.args[0]}' can't be set", target.place)
        if target.args[0] in attributes.NOT_SET:
            self.refuse(f"{target.args[0]} is set: which next hops are reached is not known here", target.place)
        term = self.term()
        self.check_type({"attribute": "EA_SET", "variable": "VAR_SET"}[target.op], target.type, term)
        self.expect(";")
        return Node("set " + target.op, [target.args[0], target.type, term, False], None, target.place)

    def changed(self, own):
        """`.empty`, or an operator that changes a list that is an attribute."""
        word = self.next()
        if word.value == "empty":
            if own.type not in EMPTY:
                self.refuse(f"'{own.args[0]}' can't be emptied", own.place)
            term = self.constant(EMPTY[own.type], own.place)
        elif word.kind == "word" and word.value in CHANGES:
            term = self.operation(CHANGES[word.value], [own, self.in_brackets()], word.place)
        else:
            self.refuse(f"'.{word.value}' stands where BIRD takes .prepend, .add, .delete, .filter or .empty",
                        word.place)
        self.expect(";")
        return Node("set attribute", [own.args[0], own.type, term, word.value != "empty"], None, own.place)

    def of_name(self):
        """A statement that begins with a name: a variable or an attribute is set, or a function is called."""
        token, symbol = self.token, self.symbol()
        if symbol is None:
            self.refuse(f"'{token.value}' is defined nowhere above")
        if symbol.kind == "function":
            self.next()
            node = self.call(symbol, token.place)
            self.expect(";")
            return Node("do", [node], None, token.place)
        if symbol.kind not in ("variable", "attribute"):
            self.refuse(f"'{token.value}' is a {symbol.kind}, and nothing that can be set")
        self.next()
        self.expect("=")
        return self.assigned(Node(symbol.kind, [symbol.value], symbol.type, token.place))
