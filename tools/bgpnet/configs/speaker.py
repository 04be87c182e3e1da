"""What a set of routers asks of each of them, in whatever language its file is written."""
from bgpnet.configs.interfaces import IgpSaid
from bgpnet.configs.routes import Denial


class Speaker:
    """A router as its file says. A language is a reader that makes one, and the answers to what stands below.

    `asn`, `router_id`, `place` (of the router in its file) and `host`, its name, are said by lines; `neighbors` has its
    neighbors by address, `networks` what it announces by prefix, `addresses` those of its interfaces. `notes` are its
    warnings, each with its place; `foreign` has the numbers of lines that other daemons take, and `end` that of its
    last line. Where its AS has other routers, or another AS of its set has several, the set says `given`, its number
    there, and to one of FRR `reach`, the next hops that it reaches (configs/igp.py), by `interfaces` and what `igp`
    says. `language` names the software that reads it, `is_origins` says that it is none but stands behind several
    routers that announce the same prefixes, `included` are the paths of files that the file includes, `keeps_routes` is
    whether it keeps the routes of a peer that restarts, `is_whole` whether all lines of its file are taken, and
    `is_sound` whether nothing of it is refused, so that what it makes of routes is known."""

    language, included, keeps_routes, is_whole, is_sound, is_origins = None, frozenset(), False, True, True, False

    def __init__(self, name):
        self.name, self.notes, self.end = name, [], None
        self.asn, self.place, self.router_id, self.host = None, None, None, None
        self.neighbors, self.networks, self.addresses, self.foreign = {}, {}, {}, set()
        self.given, self.reach, self.alone, self.interfaces, self.igp = None, None, [], {}, IgpSaid()

    @property
    def number(self):
        """Its number in the network of its set: its AS number, where the set gives it no other."""
        return self.asn if self.given is None else self.given

    def warn(self, place, said):
        note = (place, said)
        if note not in self.notes:
            self.notes.append(note)

    def warn_alone(self, place, said):
        """Warns of a line that is read where an AS of the set has several routers, and else is not."""
        self.alone.append((place, said))
        self.warn(place, said)

    # ---- routes

    def own_route(self, network, notes=None):
        """The route of a prefix that it announces, or its denial. `notes` is where the lines of attributes are kept."""
        raise NotImplementedError

    def told(self, neighbor, far, prefix, way):
        """The route that it tells a neighbor of a way that it has, or why it tells none. `far` is the other end."""
        raise NotImplementedError

    def heard(self, neighbor, far, prefix, route):
        """The route that it has of one that a neighbor tells, which may be changed; or why it has none."""
        raise NotImplementedError

    def announced(self, network):
        """What tells apart how two of its prefixes are announced."""
        raise NotImplementedError

    def asked_of(self, prefix):
        """What tells apart two prefixes to its policies."""
        raise NotImplementedError

    # ---- choosing

    def order(self, routers, prefix, ways):
        """Its ways for a prefix in order: `ways`, best first, and `ties`."""
        raise NotImplementedError

    def may_keep(self, routers, prefix, ways, kept):
        """Whether it may stay with one of the ways that stand in its table together."""
        return self.order(routers, prefix, ways).ways[0] is kept

    def prefers_own(self, own, route):
        """Whether its own route stands above one that comes back to it."""
        raise NotImplementedError

    def against(self, own, route):
        """Why it does not, in words."""
        return ""

    def preference(self, route):
        """The local preference that is compared, and the lines of its default where a route has none, or None."""
        raise NotImplementedError

    def shown(self, route):
        """The attributes of a route as the router's software shows them, by their names."""
        raise NotImplementedError

    # ---- sessions

    def no_session(self, neighbor, far):
        """Why a session does not come up, as the place and the words of a warning, or None."""
        return None

    def tells(self, network):
        """Whether the route of a prefix is there to be announced."""
        return not isinstance(self.own_route(network), Denial)
