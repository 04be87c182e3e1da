"""Works out terms: each node becomes a function of the state of a run."""
import re

from bgpnet.configs.bird.operations import SIGNATURES, has_type, wrong_type
from bgpnet.configs.bird.sets import ANY, MORE, Mask, PrefixSet, Set
from bgpnet.configs.bird.values import (EMPTY, LISTS, MOST, MOST_HALF, Address, Address6, Clist, Eclist, Enum,
                                        Incomparable, Lclist, Pair, Path, Prefix6, Quad, Triple, are_same, compare,
                                        pair_of, type_of)
from bgpnet.configs.lists import mask_of
from bgpnet.network import Prefix


class Failure(Exception):
    """An error of a filter that runs: the route is rejected."""


# ---- numbers and truth

def divide(one, other):
    if not other:
        raise Failure("a division by 0")
    return one // other


def below(one, other, answers):
    """Whether the comparison of two values answers so. BIRD looks for -1, or for what is not 1, also of texts, whose
    comparison answers other numbers too."""
    try:
        return answers(compare(one, other))
    except Incomparable:
        raise Failure(f"{type_of(one)} and {type_of(other)} can't be compared") from None


def construct_pair(one, other):
    if one > MOST_HALF or other > MOST_HALF:
        raise Failure("a half of a pair is at most 65535")
    return pair_of(one, other)


# ---- members

# The signs of a pattern: one behind a backslash, which stands for itself, or any other.
SIGNS, SIGNS_OF_MANY = re.compile(r"\\(.)|(.)", re.DOTALL), {"*": ".*", "?": "."}


def shell_fits(pattern, text):
    """Whether a text fits a pattern with `*` and `?`."""
    spelt = (re.escape(escaped) if escaped else SIGNS_OF_MANY.get(sign) or re.escape(sign)
             for escaped, sign in SIGNS.findall(pattern))
    return re.fullmatch("".join(spelt), text, re.DOTALL) is not None


def matches(one, other):
    """Whether a value is in another, or fits it."""
    kinds = type(one), type(other)
    if kinds == (Path, Mask):
        return other.fits(one)
    if kinds == (int, Path):
        return one in other
    if kinds[1] in LISTS and (kinds[0] is LISTS[kinds[1]] or kinds[1] is Clist and kinds[0] in (Quad, Address)):
        return one in other
    if kinds == (str, str):
        return shell_fits(other, one)
    if kinds == (Address, Prefix):
        return one & mask_of(other.length) == other.address
    if kinds == (Prefix, Prefix):
        return other.covers(one)
    if kinds == (Prefix, PrefixSet):
        return other.has(one)
    if Prefix6 in kinds or kinds == (Address6, Prefix):
        return kinds == (Prefix6, Prefix6) and one == other
    if kinds[1] is Set:
        return in_set(one, other)
    raise Failure(f"~ of {type_of(one)} and {type_of(other)}")


def in_set(one, found):
    """Whether a value is in a set, or an element of a list is."""
    if found.of is None:
        return False
    kind = type_of(one)
    if kind == found.of or kind == "quad" and found.of == "ip":
        return found.has(one)
    if type(one) is Path or type(one) in LISTS and suits(one, found):
        return any(found.has(element) for element in one)
    raise Failure(f"~ of {kind} and a set of {found.of}")


def suits(members, found):
    """Whether a set has the type of a list's elements."""
    return found.of in {Clist: ("pair", "quad", "ip"), Lclist: ("lc",), Eclist: ("ec",)}[type(members)]


# ---- lists

def length(value):
    if isinstance(value, (Path, Clist, Lclist, Eclist)):
        return len(value)
    if isinstance(value, Prefix):
        return value.length
    raise Failure(f".len of {type_of(value)}")


def added(members, value):
    kind = type(members)
    if kind is Path:
        raise Failure("add to a path")
    if kind not in LISTS:
        raise Failure(f"add to {type_of(members)}")
    if type(value) is kind:
        more = tuple(one for one in value if one not in members)
        return kind(members + more) if more else members
    value = as_element(kind, value)
    if value is None:
        raise Failure("add of what is no element")
    return members if value in members else kind(members + (value,))


def as_element(kind, value):
    """A value as an element of a list, or None. An address or four octets are to a list of pairs what a pair is."""
    if kind is Clist and type(value) in (Quad, Address):
        return Pair(value)
    return value if type(value) is LISTS[kind] else None


def sifted(members, value, keeps):
    """A list without what a value, a set or another list has, or with that alone. One that stays as it was is the same
    list: where it was not defined it is not."""
    found = kept_of(members, value, keeps)
    return members if found == members else found


def kept_of(members, value, keeps):
    kind = type(members)
    if kind is Path:
        if type(value) is Set and value.of in ("int", None):
            return Path(one for one in members if value.has(one) == keeps)
        if type(value) is int and not keeps:
            return Path(one for one in members if one != value)
        raise Failure("a path is filtered by what has no numbers")
    if kind not in LISTS:
        raise Failure(f"delete or filter of {type_of(members)}")
    if type(value) is kind:
        return kind(one for one in members if (one in value) == keeps)
    if type(value) is Set and (value.of is None or suits(members, value)):
        return kind(one for one in members if value.has(one) == keeps)
    element = as_element(kind, value)
    if element is None or keeps:
        raise Failure("a list is filtered by what has no elements of it")
    return kind(one for one in members if one != element)


def extreme(choose):
    def found(members):
        if type(members) not in LISTS:
            raise Failure(f".min or .max of {type_of(members)}")
        if members:
            return choose(members)
        return {Clist: Pair(0), Lclist: Triple((0, 0, 0))}.get(type(members))
    return found


def asn_of(value):
    if isinstance(value, Pair):
        return value >> 16
    if isinstance(value, Triple):
        return value[0]
    raise Failure(f".asn of {type_of(value)}")


def net_type(value):
    if isinstance(value, Prefix):
        return Enum("nettype", 1)
    raise Failure(f".type of {type_of(value)}")


# What each operation does.
ACTS = {
    "ADD": lambda a, b: (a + b) & MOST, "SUBTRACT": lambda a, b: (a - b) & MOST,
    "MULTIPLY": lambda a, b: (a * b) & MOST, "DIVIDE": divide, "EQ": are_same,
    "NEQ": lambda a, b: not are_same(a, b), "LT": lambda a, b: below(a, b, lambda found: found == -1),
    "LTE": lambda a, b: below(a, b, lambda found: found != 1), "MATCH": matches,
    "NOT_MATCH": lambda a, b: not matches(a, b),
    "NOT": lambda a: not a, "PAIR_CONSTRUCT": construct_pair, "LC_CONSTRUCT": lambda a, b, c: Triple((a, b, c)),
    "LENGTH": length, "AS_PATH_FIRST": lambda a: a[0] if a else 0, "AS_PATH_LAST": lambda a: a[-1] if a else 0,
    "AS_PATH_LAST_NAG": lambda a: a[-1] if a else 0, "ASN": asn_of, "PAIR_DATA": lambda a: a & MOST_HALF,
    "LC_DATA1": lambda a: a[1], "LC_DATA2": lambda a: a[2], "MIN": extreme(min), "MAX": extreme(max),
    "IP": lambda a: Address(a.address), "IP_MASK": lambda a, b: Address(a & mask_of(b if b <= 32 else b % 32 or 32)),
    "IS_V4": lambda a: type(a) is Address, "TYPE": net_type,
    "PATH_PREPEND": lambda a, b: Path((b,) + a), "CLIST_ADD": added, "CLIST_DEL": lambda a, b: sifted(a, b, False),
    "CLIST_FILTER": lambda a, b: sifted(a, b, True), "FORMAT": str,
}


def defined(value):
    """Whether a value is there; a list that never had an element is not."""
    return value is not None and not any(value is empty for empty in EMPTY.values())


# ---- nodes as functions of a state

def function_of(node):
    """The function that works a node out."""
    if node.op == "constant":
        value = node.args[0]
        return lambda state: value
    if node.op in SPECIAL:
        return SPECIAL[node.op](node)
    args = [checked(node.op, at, want, arg) for at, (want, arg) in enumerate(zip(SIGNATURES[node.op][0], node.args), 1)]
    act = defined if node.op == "DEFINED" else ACTS[node.op]
    if len(args) == 1:
        one = args[0]
        return lambda state: act(one(state))
    if len(args) == 2:
        one, other = args
        return lambda state: act(one(state), other(state))
    return lambda state: act(*[arg(state) for arg in args])


def checked(op, at, want, node):
    """The function of an argument, whose type is looked at where an operation takes one type alone."""
    found = function_of(node)
    if want is None or node.op == "constant":
        return found

    def look(state):
        value = found(state)
        if not has_type(value, want):
            raise Failure(wrong_type(op, at, want, type_of(value)))
        return value
    return look


def attribute(node):
    name, empty = node.args[0], EMPTY.get(node.type)

    def read(state):
        value = state.route.read(name)
        return empty if value is None and empty is not None else value
    return (lambda state: state.prefix) if name == "net" else read


def variable(node):
    slot = node.args[0]
    return lambda state: state.values[slot]


def call(node):
    routine, args = node.args[0], [function_of(arg) for arg in node.args[1]]
    return lambda state: state.call(routine, [arg(state) for arg in args])


def both(node):
    """`&&` and `||` from the left, as long as what is found so far does not decide."""
    rest = []
    while node.op in ("AND", "OR"):
        rest.append((node.op == "AND", checked(node.op, 2, "bool", node.args[1])))
        op, node = node.op, node.args[0]
    first = checked(op, 1, "bool", node)
    rest.reverse()

    def run(state):
        found = first(state)
        for is_and, act in rest:
            if found is is_and:
                found = act(state)
        return found
    return run


def mask(node):
    parts = [function_of(item) if hasattr(item, "op") else item for item in node.args]

    def make(state):
        return Mask(mask_part(at, part(state) if callable(part) else part) for at, part in enumerate(parts))
    if any(callable(part) for part in parts):
        return make
    found = make(None)
    return lambda state: found


def mask_part(at, part):
    """A part of a mask as the mask takes it."""
    if part == "+" and not at:
        raise Failure("'+' in front of a mask")
    if part in ("*", "+"):
        return ANY if part == "*" else MORE
    if part == "?":
        return lambda number: True
    if type(part) is int:
        return lambda number: number == part
    if type(part) is Set and part.of in ("int", None):
        return part.has
    if type(part) is tuple:
        return lambda number: part[0] <= number <= part[1]
    raise Failure("a part of a mask that is no number")


SPECIAL = {"attribute": attribute, "variable": variable, "call": call, "AND": both, "OR": both, "mask": mask}


def value_of(node):
    """The value of a node whose parts are constants."""
    return function_of(node)(None)
