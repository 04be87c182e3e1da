"""The emulator bgpnet for programs, and its tools as modules. tools/PYTHON.md shows how its names are used.

For programs
    interface   networks and schedules, and what the program and the tools say of them; the package has its names itself

Texts of the program
    network     networks: routers, links, rules, prefixes, paths; the limits
    tracing     what `trace` prints: events, what is said of them, rounds, what comes again
    playing     what stands behind a schedule: states, judgements, a prefix to show
    answers     what the words print, as values, and as JSON has it
    orders      orders of events: at random, in lock-step, where waves race
    reports     routes that are given: lines `route`, JSON of FRR

The program
    program     the program that is asked, refusals, the words of a command line
    jobs        work of several threads, told in order

What follows of a network
    live        the paths that can come, what routers choose of them, and what is passed over
    stable      stable assignments, and whether there is a dispute wheel
    wheels      a small dispute wheel
    timing      which timing decides between two ends
    settling    what `settle` finds of a prefix, and how orders end
    failures    links and routers that fail, and the state behind
    leftover    what is left of a network, and a start in given routes
    becoming    where a network rests when it becomes another one

Octets
    captures    pcap and pcapng: connections and what each end said
    mrt         MRT: updates and tables of RouteViews and RIS
    messages    messages of a stream, and their numbers
    decoding    what the program says of octets, and messages with all their fields
    attributes  attributes of an UPDATE that the program leaves unsaid
    names       names of capabilities and errors

Pictures
    layout      where routers, links and texts stand
    drawing     SVG of networks
    films       pictures of routes, and of what stands behind each step of a schedule
    charts      the messages of a run
    page/       the page of `player`

Packages
    configs     configurations of FRR and BIRD, and what routers do by them
    commands    a module for each tool

`tools/bgpnet/NAME.py` is the module `bgpnet.NAME`; tools/NAME, and bgpnet-NAME where the package is installed, runs
`bgpnet.commands.NAME`."""
import importlib
import importlib.util
from typing import TYPE_CHECKING, Any, List

if TYPE_CHECKING:
    from bgpnet.interface import *  # noqa: F401, F403, for a reader of types; at run time see below

__version__ = "0.1.0"


def __getattr__(name: str) -> Any:
    """The names of `interface`, which is loaded once one of them is asked for: a tool starts sooner without it."""
    if importlib.util.find_spec(f"bgpnet.{name}") is None:
        interface = importlib.import_module("bgpnet.interface")
        if name in interface.__all__:
            return getattr(interface, name)
    raise AttributeError(f"module 'bgpnet' has no attribute '{name}'")


def __dir__() -> List[str]:
    return sorted([*globals(), *importlib.import_module("bgpnet.interface").__all__])
