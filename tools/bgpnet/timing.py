"""Which timing decides: the shortest orders in which the routers of a prefix hear what they are told, by the end that
each comes to."""
from __future__ import annotations

from collections import deque
from dataclasses import dataclass
from typing import List, Optional, Sequence, Tuple

from bgpnet.live import Chooser
from bgpnet.network import Link, Network, Path, Prefix, starts
from bgpnet.tracing import rest_bound

# Of each way of a link, what its end heard last, and what is on its way; and the path of each router.
State = Tuple[Tuple[Path, Tuple[Path, ...]], ...]
End = Tuple[Tuple[int, Path], ...]
# The state before another one, the way that was heard between them, and those that were heard at once.
Before = Tuple[Optional[State], Optional[Link], List[Link]]
# How many states of routers and messages are looked at.
MOST_STATES = 15_000


class Hearings:
    """The states of a prefix as its UPDATEs are heard one by one. A state is, for each way of a link, what its end
    heard last and what is on its way; each router chooses and tells at once. A path with its hearer in it counts as
    none; an UPDATE that says again what was heard last is heard at once, since it changes nothing."""

    def __init__(self, network: Network, prefix: Prefix) -> None:
        self.chooser, self.network = Chooser(network, prefix), network
        self.ways = [way for one, other in network.links for way in ((one, other), (other, one))]
        self.place = {way: at for at, way in enumerate(self.ways)}
        self.into = {router: [self.place[peer, router] for peer in network.peers[router]] for router in network.routers}
        self.out = {router: [self.place[router, peer] for peer in network.peers[router]] for router in network.routers}

    def first(self) -> tuple[State, list[Link]]:
        """The state behind the origin's first UPDATEs, and the ways that were heard at once."""
        origin = self.chooser.origin
        told: tuple[Path, ...] = ((origin,),)
        return self.quiet([((), told if way[0] == origin else ()) for way in self.ways])

    def kept(self, state: Sequence[tuple[Path, tuple[Path, ...]]], router: int) -> Path:
        return self.chooser.best(router, [state[at][0] for at in self.into[router]])

    def quiet(self, state: list[tuple[Path, tuple[Path, ...]]]) -> tuple[State, list[Link]]:
        """The state once each UPDATE that changes nothing is heard, and the ways of these."""
        heard = []
        for at, (last, waiting) in enumerate(state):
            router = self.ways[at][1]
            left = [() if router in path or router == self.chooser.origin else path for path in waiting]
            while left and left[0] == last:
                del left[0]
                heard.append(self.ways[at])
            state[at] = last, tuple(left)
        return tuple(state), heard

    def after(self, state: State, at: int) -> tuple[State, list[Link]]:
        """The state once the next UPDATE of a way is heard, and the ways that were heard at once behind it."""
        router, new = self.ways[at][1], list(state)
        before, (_, waiting) = self.kept(state, router), state[at]
        new[at] = waiting[0], waiting[1:]
        after = self.kept(new, router)
        if after != before:
            for out in self.out[router]:
                new[out] = new[out][0], new[out][1] + (after,)
        return self.quiet(new)

    def moves(self, state: State) -> list[int]:
        return [at for at, (_, waiting) in enumerate(state) if waiting]

    def end(self, state: State) -> End:
        return tuple((router, self.kept(state, router)) for router in self.network.routers)


@dataclass(frozen=True)
class HearingOrder:
    """An order of hearings: the ways over which something is heard that changes what a router heard last, and with them
    all ways over which anything is heard."""

    telling: list[Link]
    whole: list[Link]


def shortest_orders(network: Network, prefix: Prefix) -> dict[End, HearingOrder] | None:
    """The two shortest orders of hearings that come to different ends, by the end, or fewer. None where too many states
    would have to be looked at before there are two."""
    hearings = Hearings(network, prefix)
    first, heard = hearings.first()
    before: dict[State, Before] = {first: (None, None, heard)}
    waiting = deque([first])
    ends: dict[End, State] = {}
    while waiting and len(ends) < 2:
        state = waiting.popleft()
        moves = hearings.moves(state)
        if not moves:
            ends.setdefault(hearings.end(state), state)
        for at in moves:
            after, heard = hearings.after(state, at)
            if after not in before:
                before[after] = state, hearings.ways[at], heard
                waiting.append(after)
        if len(before) > MOST_STATES:
            return None
    return {end: order_to(before, last) for end, last in ends.items()}


def order_to(before: dict[State, Before], state: State) -> HearingOrder:
    """The order that leads to a state."""
    telling: list[Link] = []
    whole: list[Link] = []
    at: State | None = state
    while at is not None:
        at, way, heard = before[at]
        own = [] if way is None else [way]
        whole, telling = own + heard + whole, own + telling
    return HearingOrder(telling, whole)


def parting(orders: Sequence[HearingOrder]) -> tuple[Link | None, Link | None]:
    """What the first of two orders does before the other way round: at the first place in which they differ, the two
    hearings, the one that each order has earlier."""
    one, other = (order.telling for order in orders)
    at = next((at for at, (first, second) in enumerate(zip(one, other)) if first != second), min(len(one), len(other)))
    return (one[at] if at < len(one) else None), (other[at] if at < len(other) else None)


def sentence(network: Network, one: Link, other: Link) -> str:
    """Two hearings, the first before the second, in words."""
    sender, router, later, last = map(network.name_of, one + other)
    return f"{router} hears {sender} before " + (later if router == last else f"{last} hears {later}")


def schedule_of(network: Network, prefix: Prefix, order: HearingOrder) -> list[str]:
    """The orders of a schedule in which the UPDATEs of a prefix are heard in this order; the others not at all."""
    origin = network.origins[prefix]
    lines = [*starts(network), f"rounds {rest_bound(network)}", f"originate {origin} {prefix}"]

    def tells(router: int) -> list[str]:
        return [f"decide {router}"] + [f"advertise {router}"] * len(network.peers[router])

    lines += tells(origin)
    for sender, router in order.whole:
        lines += [f"put {sender} {router}", f"take {router} {sender}", f"handle {router} {sender}", *tells(router)]
    return lines + [f"rounds {rest_bound(network)}"]
