"""The commands of a configuration: which one a line is, with its keywords in full.

A syntax is written as FRR writes it: keywords, `<one|other>`, `[what may be left out]`, `(1-99)` for a number,
`A.B.C.D` and `A.B.C.D/M` for addresses and prefixes, WORD for any word, `REST...` for one word or more. A keyword may
be shortened as long as it is no other's beginning."""
import re
from collections import namedtuple
from functools import lru_cache

from bgpnet.program import grouped

# How well a word fits a token: the least is the best, and of two commands the one that fits better further in front.
EXACT, TYPED, SHORTENED, ANY, REST = range(5)

ADDRESS = re.compile(r"(0|[1-9]\d{0,2})(\.(0|[1-9]\d{0,2})){3}")
LENGTH = re.compile(r"\d|[12]\d|3[012]")
OPTION = re.compile(r"\[([^][]*)\]")
CHOICE = re.compile(r"<([^<>]*)>")

# Of how many lines it is kept which command each is.
MOST_KNOWN = 65536

# A command: its syntax, what is done of it, and why it is refused where it is.
Command = namedtuple("Command", "syntax action why")
# A line that is a command: its words, keywords in full, and the command.
Match = namedtuple("Match", "words command")


class Unreadable(Exception):
    """Why a line is no command."""


def number_of(word):
    """The number of a word of at most ten digits, or None."""
    return int(word) if word.isascii() and word.isdigit() and len(word) <= 10 else None


def address_of(word):
    """The number of an address, or None. A part with a 0 in front is none to FRR."""
    if not ADDRESS.fullmatch(word):
        return None
    parts = [int(part) for part in word.split(".")]
    return None if max(parts) > 255 else sum(part << 8 * (3 - place) for place, part in enumerate(parts))


def prefix_of(word):
    """The address and the length of a prefix as it is written, or None."""
    address, slash, length = word.partition("/")
    value = address_of(address)
    return (value, int(length)) if value is not None and LENGTH.fullmatch(length) else None


# What reads a word of a token that stands for values; it answers None of a word that is none.
VALUES = {"A.B.C.D": address_of, "A.B.C.D/M": prefix_of, "X:X::X:X": lambda word: word.count(":") >= 2 or None}


def variants(syntax):
    """The syntaxes without choices and options that a syntax stands for."""
    if option := OPTION.search(syntax):
        before, after = syntax[:option.start()], syntax[option.end():]
        return variants(before + after) + variants(before + option.group(1) + after)
    if choice := CHOICE.search(syntax):
        return [found for part in choice.group(1).split("|")
                for found in variants(syntax[:choice.start()] + part + syntax[choice.end():])]
    return [tuple(syntax.split())]


@lru_cache(maxsize=None)
def token_of(text):
    """What a token takes: its kind, and the bounds of a number."""
    if text.endswith("..."):
        return "rest", None
    if bounds := re.fullmatch(r"\((\d+)-(\d+)\)", text):
        return "number", (int(bounds.group(1)), int(bounds.group(2)))
    if text in VALUES:
        return text, None
    return ("word" if text.isupper() else "keyword"), None


def fit(text, word):
    """How well a word fits a token, or None."""
    kind, bounds = token_of(text)
    if kind == "keyword":
        return EXACT if text == word else SHORTENED if word and text.startswith(word) else None
    if kind == "number":
        number = number_of(word)
        return TYPED if number is not None and bounds[0] <= number <= bounds[1] else None
    if kind in VALUES:
        return TYPED if VALUES[kind](word) is not None else None
    return REST if kind == "rest" else ANY


class Commands:
    """The commands of a block of a configuration."""

    def __init__(self, table):
        self.first = grouped((tokens[0], (tokens, command)) for command in table for tokens in variants(command.syntax))

    @lru_cache(maxsize=MOST_KNOWN)
    def find(self, words):
        """The command that a line of words is, or None; an ambiguous or a cut line raises Unreadable. Lines that stand
        in many files are looked for once."""
        found, is_cut = [], False
        for first, commands in self.first.items():
            if fit(first, words[0]) is None:
                continue
            for tokens, command in commands:
                fits = self.fits(tokens, words)
                if fits is not None:
                    found.append((fits, tokens, command))
                elif len(words) < len(tokens):
                    is_cut = is_cut or self.fits(tokens[:len(words)], words) is not None
        if not found:
            if is_cut:
                raise Unreadable("the command is cut short")
            return None
        best = min(fits for fits, _, _ in found)
        found = [(tokens, command) for fits, tokens, command in found if fits == best]
        shortened = {tuple(token for token, how in zip(tokens, best) if how == SHORTENED) for tokens, _ in found}
        if len(shortened) > 1:
            wholes = sorted({" ".join(whole) for whole in shortened})
            raise Unreadable(f"the command is ambiguous: {', '.join(wholes)}")
        tokens, command = found[0]
        full = (token if how in (EXACT, SHORTENED) else word for token, word, how in zip(tokens, words, best))
        return Match((*full, *words[len(tokens):]), command)

    @staticmethod
    def fits(tokens, words):
        """How well each token fits, or None where one does not."""
        if len(words) != len(tokens) and not (len(words) > len(tokens) and tokens[-1].endswith("...")):
            return None
        fits = []
        for token, word in zip(tokens, words):
            how = fit(token, word)
            if how is None:
                return None
            fits.append(how)
        return tuple(fits)
