"""Runs filters: each statement becomes a function of the state of a run.

It answers None, or how the filter or the function ends there: a word, a value and the place."""
from functools import partial

from bgpnet.configs.bird.attributes import STATIC
from bgpnet.configs.bird.operations import ELEMENTS, has_type, wrong_type
from bgpnet.configs.bird.run import Failure, checked, function_of
from bgpnet.configs.bird.values import TYPES, Quad, type_of
from bgpnet.configs.places import refusal
from bgpnet.configs.routes import Denial

ACCEPT, REJECT, RETURN = "accept", "reject", "return"
# The attributes that are told apart where the lines of attributes are asked for.
NOTED = {"bgp_local_pref": "local-pref", "bgp_path": "path", "bgp_origin": "origin", "bgp_med": "med",
         "bgp_community": "communities", "bgp_large_community": "large", "preference": "preference", "bgp_otc": "otc"}
MOST_PREFERENCE = 65535
# The numbers of the kinds of routes without a next hop: blackhole, unreachable, prohibit.
SINKS, UNREACHABLE = (2, 3, 4), 3


class Ended(Exception):
    """An `accept` or a `reject` within a function that a term calls."""

    def __init__(self, end):
        super().__init__()
        self.end = end


class State:
    """A run of a filter: the route that it changes, the prefix, and the values of the routine that runs."""

    def __init__(self, route, prefix, routine=None):
        self.route, self.prefix, self.routine = route, prefix, routine
        self.values = [None] * routine.size if routine else []

    def call(self, routine, args):
        """The value that a function returns, None where it has none."""
        kept = self.values, self.routine
        self.values, self.routine = args + [None] * (routine.size - len(args)), routine
        end = code_of(routine)(self)
        self.values, self.routine = kept
        if end is None:
            return None
        if end[0] != RETURN:
            raise Ended(end)
        return end[1]


def code_of(routine):
    if routine.code is None:
        routine.code = statement_of(routine.body)
    return routine.code


def apply(routine, route, prefix):
    """Changes a route by a filter; the denial, where it ends in one."""
    try:
        end = code_of(routine)(State(route, prefix, routine))
    except Ended as ended:
        end = ended.end
    except RecursionError:
        raise refusal(routine.place, f"{routine}: what it says is nested too deep") from None
    except Failure as why:
        return Denial(getattr(why, "place", routine.place), f"{routine}: an error: {why}")
    if end is None:
        return Denial(routine.place, f"{routine}: it ends without accept or reject")
    word, value, place = end
    if word == RETURN:
        if type(value) is not bool:
            return Denial(place, f"{routine}: it returns {type_of(value)}")
        word = ACCEPT if value else REJECT
    return None if word == ACCEPT else Denial(place, str(routine) if routine.name else f"{routine} rejects")


def amend(routine, route, prefix):
    """Changes a route by the statements in the braces of a static route: nothing denies it, and what came before an
    error stays."""
    try:
        code_of(routine)(State(route, prefix, routine))
    except (Ended, Failure):
        return


# ---- statements

def statement_of(node):
    return STATEMENTS[node.op](node)


def placed(node, act):
    """A function that says of an error where it came up."""
    def run(state):
        try:
            return act(state)
        except Failure as why:
            if not hasattr(why, "place"):
                why.place = node.place
            raise
    return run


def block(node):
    acts = [statement_of(one) for one in node.args[0]]

    def run(state):
        for act in acts:
            end = act(state)
            if end is not None:
                return end
        return None
    return run


def conditional(node):
    condition = checked("CONDITION", 1, "bool", node.args[0])
    then = statement_of(node.args[1])
    other = statement_of(node.args[2]) if node.args[2] else lambda state: None
    return placed(node, lambda state: then(state) if condition(state) else other(state))


def switch(node):
    term, items, bodies = function_of(node.args[0]), node.args[1], [statement_of(one) for one in node.args[2]]

    def run(state):
        value = term(state)
        item = items.find(value) or items.find(None)
        return None if item is None else bodies[item[2]](state)
    return placed(node, run)


def loop(node):
    slot, type, term, body = node.args
    term, body = function_of(term), statement_of(body)

    def run(state):
        found = term(state)
        if TYPES.get(found.__class__) not in ELEMENTS or ELEMENTS[type_of(found)] != type:
            raise Failure(f"{type_of(found)} has no elements of type {type}")
        for element in found:
            state.values[slot] = element
            end = body(state)
            if end is not None:
                return end
        state.values[slot] = None
        return None
    return placed(node, run)


def printed(node, end=None):
    terms = [function_of(one) for one in node.args[0]]

    def run(state):
        for term in terms:
            term(state)
        return end
    return placed(node, run)


def ending(node):
    return printed(node, (node.op, None, node.place))


def returned(node):
    term, place = function_of(node.args[0]), node.place
    return placed(node, lambda state: (RETURN, term(state), place))


def called(node):
    term = function_of(node.args[0])

    def run(state):
        term(state)
    return placed(node, run)


def set_variable(node, op="VAR_SET"):
    slot, type, term, *_ = node.args
    term = function_of(term) if term else lambda state: None

    def run(state):
        state.values[slot] = of_type(term(state), op, type)
    return placed(node, run)


def of_type(value, op, type):
    """A value that is kept as one of a type. What is undefined is none, and an address may be four octets."""
    if type == "quad" and TYPES.get(value.__class__) == "ip":
        return Quad(value)
    if not has_type(value, type):
        raise Failure(wrong_type(op, 1, type, type_of(value)))
    return value


def set_attribute(node):
    name, type, term, adds = node.args
    term, is_counted = function_of(term), name not in STATIC

    def run(state):
        value, route = of_type(term(state), "EA_SET", type), state.route
        if name == "preference":
            value &= MOST_PREFERENCE
        if name == "dest" and value.number not in SINKS:
            raise Failure("dest is set to what is no sink")
        if name == "bgp_path" and route.notes is not None:
            for number in {*route.path}.difference(value):
                route.note(("excluded", number), node.place, True)
        is_same = adds and value == route.read(name)
        route.sets += is_counted
        route.write(name, value)
        if name in NOTED and not is_same:
            note(route, NOTED[name], f"{node.place} {state.routine}", adds)
    return placed(node, run)


def note(route, attribute, said, adds):
    """Keeps the line that changed an attribute, once."""
    if route.notes is not None and not (adds and said in route.notes.get(attribute, ())):
        route.note(attribute, said, adds)


def unset(node):
    name = node.args[0]

    def run(state):
        state.route.sets += 1
        state.route.is_unset = state.route.sets == 1
        state.route.write(name, None)
        if name in NOTED:
            state.route.note(NOTED[name], f"{node.place} {state.routine}")
    return placed(node, run)


STATEMENTS = {"block": block, "if": conditional, "case": switch, "for": loop, "accept": ending, "reject": ending,
              "print": printed, "printn": printed, "return": returned, "do": called,
              "declare": partial(set_variable, op="VAR_INIT"), "set variable": set_variable,
              "set attribute": set_attribute, "unset": unset}


# ---- what filters ask

def routines_of(routine, found=None):
    """A filter and the functions that it calls, and those that these call."""
    found = {} if found is None else found
    if routine not in found:
        found[routine] = None
        for node in routine.body.walk():
            if node.op == "call":
                routines_of(node.args[0], found)
    return list(found)


def questions_of(routines):
    """What routines ask of a prefix: the sets in which it may be, and whether its length or all of it counts."""
    sets, counts = [], set()
    for routine in routines:
        for node in routine.body.walk():
            if node.op in ("MATCH", "NOT_MATCH") and is_net(node.args[0]) and node.args[1].is_constant:
                sets.append(node.args[1].args[0])
            elif node.op == "LENGTH" and is_net(node.args[0]):
                counts.add("length")
            elif any(is_net(part) for part in node.inner()):
                counts.add("prefix")
    return sets, counts


def is_net(node):
    return node.op == "attribute" and node.args[0] == "net"


def answers(questions, prefix):
    """What tells two prefixes apart to routines."""
    sets, counts = questions
    found = tuple(function_of_set(one)(prefix) for one in sets)
    return found + (prefix.length,) * ("length" in counts) + (prefix,) * ("prefix" in counts)


def function_of_set(one):
    """Whether a set, or a prefix, has a prefix; of anything else, which is an error, nothing counts."""
    return getattr(one, "has", None) or getattr(one, "covers", None) or (lambda prefix: None)
