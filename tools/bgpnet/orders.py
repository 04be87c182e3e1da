"""Orders of events in which a network is played: router by router, in lock step, and random ones by their seeds."""
from __future__ import annotations

import random
from typing import Iterator

from bgpnet.network import Network
from bgpnet.tracing import pieces_of, rounds_of_a_wave

# A race of random events is as long as so many rounds, or so many times those in which a router tells all; it has, as
# rounds in lock step have, so many lines at most.
RACE, RACE_WAVES, MOST_LINES = 60, 4, 400_000


def events_of(network: Network) -> Iterator[str]:
    """The events of a round, router by router."""
    for router in network.routers:
        for peer in network.peers[router]:
            yield from (f"{word} {router} {peer}" for word in ("put", "take", "handle"))
        yield from (f"{word} {router}" for word in ("decide", "advertise", "offer"))


def lock_step(network: Network) -> list[str]:
    """A round in which all routers do the same: each puts, each takes, each handles, each decides, each tells, each
    offers. What a router may have more than one of in a round comes as often."""
    events = list(events_of(network))
    lines: list[str] = []
    for word, times in (("put", 2), ("take", 1), ("handle", 2), ("decide", 1), ("advertise", 1), ("offer", 1)):
        for event in events:
            if event.startswith(word + " "):
                lines += [event] * (times if word != "advertise" else len(network.peers[int(event.split()[1])]))
    return lines


def race_of(network: Network) -> int:
    """In so many rounds of random events everything may come in any order."""
    return max(RACE, RACE_WAVES * rounds_of_a_wave(network)) * pieces_of(network)


def at_random(network: Network, seed: int, rounds: int) -> list[str]:
    """As many events as rounds have, each drawn by the seed."""
    events, draw = list(events_of(network)), random.Random(seed)
    return [events[int(draw.random() * len(events))] for _ in range(min(rounds * len(events), MOST_LINES))]
