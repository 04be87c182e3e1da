"""A route with its attributes, and why a router has none."""
from collections import namedtuple
from dataclasses import dataclass
from typing import Any, Dict, Optional, Tuple

from bgpnet.configs.communities import community_text

MOST = 2**32 - 1
ORIGINS = ("igp", "egp", "incomplete")

# Why a route is not taken or not told, and by what line.
Denial = namedtuple("Denial", "place why")


def denied_by(community, route, place):
    """The denial of a route that a community of it stops, with the lines by which its communities came."""
    lines = route.notes and route.notes.get("communities")
    return Denial(place, f"community {community_text(community)}" + (f" by {', '.join(lines)}" if lines else ""))


@dataclass(eq=False)
class Route:
    """A route in a router's table, or on its way to one.

    LOCAL_PREF and MULTI_EXIT_DISC have a field and a flag each, as in FRR: without the flag the attribute is not there,
    and the field is still seen by `match`. `customer` is the number of ONLY_TO_CUSTOMER (RFC 9234), or None. `notes`
    has by what lines each attribute came, where that is asked for, and by which a number was excluded.

    `next_hop` is an address, or None where it is the router itself that has or tells the route; `originator` and
    `clusters` are ORIGINATOR_ID and CLUSTER_LIST (RFC 4456). What the router that has it knows besides stands in
    `heard`, or None of an own route."""

    path: Tuple[int, ...] = ()
    origin: Optional[int] = 0
    med: int = 0
    has_med: bool = False
    preference: int = 0
    has_preference: bool = False
    weight: int = 0
    communities: Tuple[Any, ...] = ()
    large: Tuple[Any, ...] = ()
    customer: Optional[int] = None
    notes: Optional[Dict[Any, Any]] = None
    next_hop: Optional[int] = None
    originator: Optional[int] = None
    clusters: Tuple[int, ...] = ()
    heard: Any = None

    def copy(self):
        route = object.__new__(type(self))
        route.__dict__.update(self.__dict__, notes=None if self.notes is None else dict(self.notes))
        return route

    def note(self, attribute, said=None, adds=False):
        """Keeps by what line an attribute came, or what other line changed it; without one it came by none."""
        if self.notes is not None:
            former = self.notes.get(attribute, ()) if adds else ()
            self.notes[attribute] = former + (str(said),) * (said is not None)

    def above(self):
        """What is compared before local preference, as far as it is not that of every route, with its name."""
        return [("weight", f"weight {self.weight}")] * bool(self.weight)

    def attributes(self):
        """What tells routes of one way apart: all that a table shows."""
        return (self.path, self.origin, self.med if self.has_med else None,
                self.preference if self.has_preference else None, self.weight, self.communities, self.large,
                self.customer, self.next_hop, self.originator, self.clusters)
