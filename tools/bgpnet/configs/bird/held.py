"""A route in the table of a router of BIRD, as its filters see it."""
from dataclasses import dataclass, field
from typing import Any, Dict, FrozenSet, Optional

from bgpnet.configs.bird.values import BGP, EMPTY, STATIC, Address, Address6, Clist, Enum, Lclist, Pair, Path, Triple
from bgpnet.configs.routes import Route

OWN_STANDING, STANDING = 200, 100


@dataclass(eq=False)
class Held(Route):
    """A route with what a router of BIRD keeps of it beside the attributes of BGP.

    `standing` is the number that BIRD calls preference. `is_marked` says that MED was just set, so that it is sent;
    `sets` counts what was set of an own route, and `is_unset` says that the first was to unset an attribute. `near` is
    the neighbor by whom the route came, None of an own one; `proto` the name of its protocol, `kind` that of an own
    route's destination, `more` has the attributes that stay here. `emptied` names the empty lists that are defined,
    `cleared` those that will be as soon as the route is in the table."""

    standing: int = STANDING
    is_marked: bool = False
    sets: int = 0
    is_unset: bool = False
    near: Any = None
    proto: str = ""
    kind: Optional[int] = None
    more: Dict[str, Any] = field(default_factory=dict)
    emptied: FrozenSet[str] = frozenset()
    cleared: FrozenSet[str] = frozenset()

    def copy(self):
        found = super().copy()
        found.more = dict(self.more)
        return found

    def attributes(self):
        return super().attributes() + (self.standing, self.is_marked, self.proto, self.kind, self.emptied,
                                       tuple(sorted(self.more.items())))

    def above(self):
        usual = STANDING if self.near else OWN_STANDING
        return [("preference", f"preference {self.standing}")] * (self.standing != usual)

    # ---- as filters read and set it

    def read(self, name):
        """The value of an attribute, None where it is undefined."""
        if name in self.more:
            return self.more[name]
        value = READ[name](self) if name in READ else None
        return NONE[type(value)] if value == () and name not in self.emptied else value

    def write(self, name, value):
        """Sets an attribute; None leaves it undefined."""
        if name in WRITE:
            vars(self).update(WRITE[name](value))
            is_empty = value == ()
            is_none = is_empty and value is NONE[type(value)]
            self.emptied = self.emptied.difference((name,)).union((name,) * (is_empty and not is_none))
            self.cleared = self.cleared.difference((name,)).union((name,) * is_none)
        else:
            self.more[name] = value

    def come(self):
        """What becomes of the route as it comes into the table: lists that were emptied are defined, and no MED was
        just set."""
        self.is_marked, self.emptied = False, self.emptied | self.cleared


def address_of(route):
    """The address of the neighbor by whom a route came."""
    return Address(route.near.address) if route.near else Address6("::")


# The lists that are not defined.
NONE = {type(value): value for value in EMPTY.values()}
READ = {
    "bgp_path": lambda route: Path(route.path),
    "bgp_origin": lambda route: None if route.origin is None else Enum("origin", route.origin),
    "bgp_local_pref": lambda route: route.preference if route.has_preference else None,
    "bgp_med": lambda route: route.med if route.has_med else None,
    "bgp_otc": lambda route: route.customer,
    "bgp_community": lambda route: Clist(map(Pair, route.communities)),
    "bgp_large_community": lambda route: Lclist(map(Triple, route.large)),
    "preference": lambda route: route.standing,
    "proto": lambda route: route.proto,
    "source": lambda route: BGP if route.near else STATIC,
    "from": address_of,
    "bgp_next_hop": lambda route: address_of(route) if route.near else None,
    "gw": lambda route: address_of(route) if route.near and route.near.is_direct else Address6("::"),
    "dest": lambda route: Enum("dest", route.kind if route.near is None else 1 if route.near.is_direct else 3),
    "scope": lambda route: Enum("scope", 4),
}
# The fields that change where an attribute is set.
WRITE = {
    "bgp_path": lambda value: {"path": tuple(value or ())},
    "bgp_origin": lambda value: {"origin": None if value is None else value.number},
    "bgp_local_pref": lambda value: {"preference": value or 0, "has_preference": value is not None},
    "bgp_med": lambda value: {"med": value or 0, "has_med": value is not None, "is_marked": value is not None},
    "bgp_otc": lambda value: {"customer": value},
    "bgp_community": lambda value: {"communities": tuple(map(int, value or ()))},
    "bgp_large_community": lambda value: {"large": tuple(map(tuple, value or ()))},
    "preference": lambda value: {"standing": value},
}
