"""The operations of terms: the types that they take, and what they answer.

What a file says of a type is checked where the file is read, as BIRD does; the rest where a filter runs."""
from bgpnet.configs.bird.values import NAMED, TYPES, Enum, type_of

ANY = None
# The types of an operation's arguments, and of its answer.
SIGNATURES = {
    "ADD": (("int", "int"), "int"), "SUBTRACT": (("int", "int"), "int"), "MULTIPLY": (("int", "int"), "int"),
    "DIVIDE": (("int", "int"), "int"), "AND": (("bool", "bool"), "bool"), "OR": (("bool", "bool"), "bool"),
    "EQ": ((ANY, ANY), "bool"), "NEQ": ((ANY, ANY), "bool"), "LT": ((ANY, ANY), "bool"), "LTE": ((ANY, ANY), "bool"),
    "MATCH": ((ANY, ANY), "bool"), "NOT_MATCH": ((ANY, ANY), "bool"), "NOT": (("bool",), "bool"),
    "DEFINED": ((ANY,), "bool"), "PAIR_CONSTRUCT": (("int", "int"), "pair"),
    "LC_CONSTRUCT": (("int", "int", "int"), "lc"), "LENGTH": ((ANY,), "int"), "AS_PATH_FIRST": (("bgppath",), "int"),
    "AS_PATH_LAST": (("bgppath",), "int"), "AS_PATH_LAST_NAG": (("bgppath",), "int"), "ASN": ((ANY,), "int"),
    "PAIR_DATA": (("pair",), "int"), "LC_DATA1": (("lc",), "int"), "LC_DATA2": (("lc",), "int"),
    "MIN": ((ANY,), ANY), "MAX": ((ANY,), ANY), "IP": (("prefix",), "ip"), "IP_MASK": (("ip", "int"), "ip"),
    "IS_V4": (("ip",), "bool"), "TYPE": ((ANY,), "nettype"), "PATH_PREPEND": (("bgppath", "int"), "bgppath"),
    "CLIST_ADD": ((ANY, ANY), ANY), "CLIST_DEL": ((ANY, ANY), ANY), "CLIST_FILTER": ((ANY, ANY), ANY),
    "FORMAT": ((ANY,), "string"), "CONDITION": (("bool",), ANY), "VAR_SET": ((ANY,), ANY),
}
BINARY = {"+": "ADD", "-": "SUBTRACT", "*": "MULTIPLY", "/": "DIVIDE", "&&": "AND", "||": "OR", "=": "EQ", "!=": "NEQ",
          "<": "LT", "<=": "LTE", "~": "MATCH", "!~": "NOT_MATCH"}
# `a > b` is `b < a`.
TURNED = {">": "LT", ">=": "LTE"}
METHODS = {"len": "LENGTH", "first": "AS_PATH_FIRST", "last": "AS_PATH_LAST", "last_nonaggregated": "AS_PATH_LAST_NAG",
           "asn": "ASN", "data": "PAIR_DATA", "data1": "LC_DATA1", "data2": "LC_DATA2", "min": "MIN", "max": "MAX",
           "ip": "IP", "is_v4": "IS_V4", "type": "TYPE"}
CHANGES = {"prepend": "PATH_PREPEND", "add": "CLIST_ADD", "delete": "CLIST_DEL", "filter": "CLIST_FILTER"}
# What the elements of a list are.
ELEMENTS = {"bgppath": "int", "clist": "pair", "lclist": "lc", "eclist": "ec"}
SETS = ("int", "pair", "quad", "ip", "ec", "lc", "prefix", "enum")
SCALARS = ("int", "bool", "ip", "prefix", "rd", "pair", "quad", "ec", "lc", "string", "bgpmask", "bgppath", "clist",
           "eclist", "lclist")
# The types of which a set has its items.
OF_SETS = ("int", "pair", "quad", "ip", "ec", "lc", *{value.kind for value in NAMED.values()})


def wrong_type(op, at, want, got):
    return f"argument {at} of {op} must be of type {want}, and is {got}"


def wrong_types(op, args):
    """Why arguments whose types the file says don't fit an operation, or None."""
    for at, (want, arg) in enumerate(zip(SIGNATURES[op][0], args), 1):
        if want and arg.type and not fits(want, arg.type):
            return wrong_type(op, at, want, arg.type)
    if op in ("LT", "LTE") and args[0].type and args[1].type and args[0].type != args[1].type:
        return f"the arguments of {op} must be of one type, and are {args[0].type} and {args[1].type}"
    return None


def fits(want, got):
    return want == got or want == "quad" and got == "ip"


def result_of(op, args):
    """The type of an operation's answer, as far as the file says it."""
    if op in ("CLIST_ADD", "CLIST_DEL", "CLIST_FILTER"):
        return args[0].type
    if op in ("MIN", "MAX"):
        return ELEMENTS.get(args[0].type)
    return SIGNATURES[op][1]


def has_type(value, want):
    """Whether a value is of a type."""
    return TYPES.get(type(value)) == want or isinstance(value, Enum) and value.kind == want or \
        value is not None and fits(want, type_of(value))
