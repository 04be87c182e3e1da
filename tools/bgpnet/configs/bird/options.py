"""The options of protocols and channels, and the lines at the top of a file: each a row, how it is taken, then its
syntax.

`ignored` has no effect on which routes a router uses; `warned` has none as long as what the warning says holds; `value`
is kept by the words in front of its value; a word of `REFUSED` can't be said as ranked paths. Any other word is the
method of the reader that obeys it, with the rest of the line still to be read.

A syntax has keywords, NUM, TEXT, ADDRESS, BOOL (which may be left out), `<one|other>`, `[what may be left out]`, and
REST for whatever comes up to the end of the option."""
from collections import namedtuple
from functools import lru_cache
from itertools import takewhile

from bgpnet.configs.syntax import variants

REFUSED = {
    "addpath": "add paths: more than one path of a peer",
    "aigp": "AIGP: preference depends on distances inside an AS",
    "confederation": "a confederation: every router is an AS of its own",
    "dynamic": "dynamic neighbors: no line names them",
    "loops": "allow local as: a way may pass a router twice",
    "older": "prefer older: of two routes that came first depends on the order of events",
    "reflector": "a route reflector: every router is an AS of its own",
    "secondary": "secondary: what is told is not the best route",
    "vrf": "a VRF: one instance is read",
    "lookup": "an IGP table: whether a next hop is reached is not known here",
    "narrow": "AS numbers of two octets: the path is not the way",
    "interface": "a neighbor by its interface: it has no address of IPv4",
    "chosen": "a router id by the interfaces: these are not known here",
}

# How a line of a table is taken, its variants, and what is refused of it.
Option = namedtuple("Option", "action words")

TOP = """
router_id  router id ADDRESS
number_id  router id NUM
chosen     router id from REST
ignored    log <syslog|stderr|TEXT> REST
ignored    debug <protocols|channels|commands|latency> REST
ignored    mrtdump REST
ignored    timeformat REST
ignored    watchdog <warning|timeout> REST
host       hostname TEXT
ignored    graceful restart wait NUM
"""

# What every protocol takes.
PROTOCOL = """
value      disabled BOOL
ignored    description TEXT
ignored    debug REST
ignored    mrtdump REST
ignored    tx <class|dscp|priority> NUM
value      router id ADDRESS
vrf        vrf REST
"""

BGP = PROTOCOL + """
ignored    <hold|min hold|startup hold|keepalive|min keepalive> time NUM
ignored    <connect delay|connect retry|error forget|start delay> time NUM
ignored    error wait time NUM , NUM
ignored    disable after error BOOL
ignored    disable after cease REST
restart    <graceful restart|long lived graceful restart> <aware|BOOL>
ignored    graceful restart time NUM
ignored    long lived stale time NUM
ignored    enable <route refresh|enhanced route refresh|extended messages> BOOL
as4        enable as4 BOOL
ignored    <capabilities|advertise hostname|strict bind|free bind|check link|setkey|allow as sets> BOOL
direct     direct
multihop   multihop [NUM]
value      <path metric|med metric|igp metric|deterministic med|interpret communities> BOOL
value      <allow bgp_local_pref|enforce first as|require roles|passive|rs client> BOOL
value      <default bgp_local_pref|default bgp_med> NUM
if_on      prefer older BOOL
if_on      rr client BOOL
reflector  rr cluster id REST
own        allow local as [NUM]
confederation confederation REST
value      password TEXT
value      ttl security BOOL
source     source address ADDRESS
warned     bfd REST
interface  interface REST
dynamic    dynamic name REST
"""

# What every channel takes.
CHANNEL = """
ignored    debug REST
table      table REST
value      preference NUM
limit      <import|receive|export> limit REST
ignored    <import keep filtered|rpki reload> BOOL
policy     <import|export> REST
"""

BGP_CHANNEL = CHANNEL + """
ignored    <mandatory|import table|export table|validate|extended next hop> BOOL
ignored    <graceful restart|long lived graceful restart> BOOL
ignored    long lived stale time NUM
ignored    next hop self ibgp
value      next hop self <ebgp|BOOL>
ignored    next hop keep ibgp
hop        next hop keep <ebgp|BOOL>
hop        next hop address ADDRESS
ignored    next hop prefer global
ignored    <missing lladdr|link local next hop format> REST
gateway    gateway <direct|recursive>
lookup     igp table REST
ignored    base table REST
if_on      secondary BOOL
if_on      add paths <rx|tx|BOOL>
if_on      aigp <originate|BOOL>
value      cost NUM
"""

STATIC = PROTOCOL + """
ignored    check link BOOL
lookup     igp table REST
route      route REST
"""

# Why an option that is on is refused, by the words that it begins with.
IF_ON = {"prefer older": "older", "rr client": "reflector", "secondary": "secondary", "add paths": "addpath",
         "aigp": "aigp"}
ON, OFF = ("on", "yes"), ("off", "no")


def why_off(words):
    """Why an option that is on is refused."""
    return REFUSED[next(row for first, row in IF_ON.items() if words.startswith(first))]


@lru_cache(maxsize=None)
def rows(table):
    """The options of a table, each of its variants by itself, those with more keywords first."""
    found = []
    for line in table.split("\n"):
        if line.strip():
            action, syntax = line.split(None, 1)
            found += [Option(action, words) for words in variants(syntax)]
    return sorted(found, key=lambda option: -sum(word.islower() for word in option.words))


def match(stream, table):
    """The row that the tokens at a stream begin, or None: as many keywords in front as there are."""
    for option in rows(table):
        keywords = list(takewhile(lambda word: not word.isupper(), option.words))
        if keywords and all(stream.is_next(word, more=at) for at, word in enumerate(keywords)):
            if fits(stream, option.words, len(keywords)):
                return option, len(keywords)
    return None


def fits(stream, words, at):
    """Whether what follows the keywords is what a variant of a row takes, up to the end of the option."""
    rest = words[at:]
    if not rest:
        return stream.is_next(";", "}", more=at)
    if rest[0] in ("REST", "BOOL"):
        return True
    token = stream.peek(at)
    kinds = {"NUM": token.kind == "number" or token.kind == "name" or token.value == "(", "TEXT": token.kind == "text",
             "ADDRESS": token.kind in ("address", "name")}
    return kinds.get(rest[0], stream.is_next(rest[0], more=at))
