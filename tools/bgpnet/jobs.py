"""Work of several threads, each of which asks the program, told in order."""
from __future__ import annotations

import collections
import concurrent.futures
import itertools
import os
import sys
from typing import Callable, Iterator, Sequence, TypeVar

from bgpnet.program import Words, count

Thing = TypeVar("Thing")
Made = TypeVar("Made")
# How many things wait for each thread at most.
AHEAD = 4


def cores() -> int:
    """How many cores there are for this process."""
    return len(os.sched_getaffinity(0)) if hasattr(os, "sched_getaffinity") else os.cpu_count() or 1


def in_order(make: Callable[[Thing], Made], things: Sequence[Thing], jobs: int,
             about: str) -> Iterator[Made]:
    """What is made of each thing, in the order of the things, by so many threads at a time. Where the standard error is
    a terminal, it says how far it is."""
    pool, is_seen = concurrent.futures.ThreadPoolExecutor(jobs), sys.stderr.isatty()
    submitted = (pool.submit(make, thing) for thing in things)
    waiting = collections.deque(itertools.islice(submitted, AHEAD * jobs))
    try:
        for told in range(1, len(things) + 1):
            made = waiting.popleft().result()
            waiting.extend(itertools.islice(submitted, 1))
            if is_seen:
                print(f"\r{told} of {len(things)} {about} ", end="", file=sys.stderr, flush=True)
            yield made
    finally:
        for future in waiting:
            future.cancel()
        pool.shutdown()
        if is_seen:
            print("\r\x1b[K", end="", file=sys.stderr, flush=True)


def add_word(words: Words, done: str = "are played") -> None:
    """The word `--jobs` of a command line, of things of which so many are played, or run, at a time."""
    words.add_argument("--jobs", type=count(1, 256), metavar="N", default=cores(),
                       help=f"how many {done} at a time (as many as there are cores)")
