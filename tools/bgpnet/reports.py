"""Routes that routers report: the `route` lines of the program, and what FRR prints as JSON."""
from __future__ import annotations

import json
from typing import Any, Iterator, Mapping, Sequence

from bgpnet.network import Path, Prefix, RouteDict, numbered, read_path
from bgpnet.program import Refusal


# How many letters of a path are shown that can't be read.
MOST_SHOWN = 200


def is_json(text: str) -> bool:
    return text.lstrip()[:1] in ("{", "[")


def read_report(text: str, name: str) -> RouteDict:
    """The routes of a report, by router and prefix."""
    return of_json(text, name) if is_json(text) else of_lines(text, name)


def of_lines(text: str, name: str) -> RouteDict:
    """The paths of `route` and `path` lines."""
    return {(router, prefix): path for _, router, prefix, path in lines_of(text, name, ("route", "path"))}


def lines_of(text: str, name: str, kinds: Sequence[str]) -> Iterator[tuple[int, int, Prefix, Path]]:
    """The number, the router, the prefix and the path of each line of these kinds."""
    for number, words in numbered(text.splitlines()):
        if words[0] in kinds:
            try:
                yield number, int(words[1]), Prefix.named(words[2]), read_path(words[3])
            except (Refusal, ValueError, IndexError):
                raise Refusal(f"{name}:{number}: no `route AS PREFIX PATH`") from None


def of_json(text: str, name: str) -> RouteDict:
    """The best paths that FRR's `show bgp ipv4 unicast json` has of one router, or of several one after the other."""
    routes: RouteDict = {}
    for said in objects_of(text, name):
        own = said.get("localAS") if isinstance(said, dict) else None
        tables = said.get("routes") if isinstance(said, dict) else None
        if not isinstance(own, int) or not isinstance(tables, dict):
            raise Refusal(f"{name}: no `show bgp ipv4 unicast json` of FRR: it has `localAS` and `routes`")
        for prefix, path in best_paths(tables, name):
            routes[own, prefix] = (own, *numbers_of(path, name))
    return routes


def best_paths(tables: Mapping[str, Any], name: str) -> Iterator[tuple[Prefix, Mapping[str, Any]]]:
    """The best path of each prefix in the `routes` of FRR's JSON, if it has one."""
    for word, paths in tables.items():
        for path in paths if isinstance(paths, list) else ():
            best = path.get("bestpath") if isinstance(path, dict) else None
            if best in (True, "true") or isinstance(best, dict) and best.get("overall"):
                yield prefix_of(word, name), path
                break


def objects_of(text: str, name: str) -> list[Any]:
    """The JSON values of a text, one after the other."""
    decoder, at = json.JSONDecoder(), 0
    found: list[Any] = []
    text = text.strip()
    while at < len(text):
        try:
            value, at = decoder.raw_decode(text, at)
        except (ValueError, RecursionError) as why:
            raise Refusal(f"{name}: no JSON: {why}") from None
        found += value if isinstance(value, list) else [value]
        while text[at:at + 1].isspace():
            at += 1
    return found


def prefix_of(word: str, name: str) -> Prefix:
    try:
        return Prefix.named(word)
    except Refusal as why:
        raise Refusal(f"{name}: {why}") from None


def numbers_of(path: Mapping[str, Any], name: str) -> Path:
    """The AS numbers of a path as FRR has it."""
    said = path.get("path", "")
    said = said.get("string", "") if isinstance(said, dict) else said
    if not isinstance(said, str):
        raise Refusal(f"{name}: no path of AS numbers")
    words = [word for word in said.split() if word not in ("i", "e", "?", "Local")]
    if not all(word.isascii() and word.isdigit() and len(word) <= 10 for word in words):
        what = "a path with a set of AS numbers" if "{" in said else "no path of AS numbers"
        raise Refusal(f"{name}: {what}: {said[:MOST_SHOWN]}")
    return tuple(map(int, words))
