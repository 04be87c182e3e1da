"""Where a line stands, and what is refused or said of it."""
import re
from collections import namedtuple

from bgpnet.program import Refusal, refuse_all

# What is said where two routers of one AS are asked for: no line of another form could say that.
OF_ITS_OWN = "an AS of its own"
# How a refusal says its place.
PLACED = re.compile(r"(.*?):(\d+): ")


class Place(namedtuple("Place", "file line")):
    """A line of a file."""

    def __str__(self):
        return f"{self.file}:{self.line}"


def refusal(place, why):
    """The refusal of what stands at a place."""
    return Refusal(f"{place}: {why}")


class Passed(Exception):
    """A line is passed over, since what it is of was refused, or passed over, with a word of its own."""


class Reasons:
    """Why something is refused: what is found is kept, so that one run tells all of it; of each line the first alone,
    where that is asked for. `files` are the names of the files, in the order in which they are told."""

    def __init__(self, is_one_a_line=False, files=()):
        self.found, self.is_one_a_line, self.places, self.files = {}, is_one_a_line, set(), files

    def __len__(self):
        return len(self.found)

    def add(self, why):
        for line in why.lines:
            place = PLACED.match(line)
            if not (self.is_one_a_line and place and place[0] in self.places):
                self.found.setdefault(line, Refusal(line))
            self.places.add(place and place[0])

    def gather(self, others):
        for why in others.found.values():
            self.add(why)

    def attempt(self, act, *args):
        """Does something, and keeps why that is refused; then the answer is None."""
        try:
            return act(*args)
        except Passed:
            return None
        except Refusal as why:
            self.add(why)
            return None

    def refuse(self):
        """Refuses for all that was found, if there is something: first for what no line of another form could say, then
        in the order of the files, line by line."""
        files = {name: at for at, name in enumerate(self.files)}

        def order(why):
            found = PLACED.match(str(why))
            file, line = (found[1], int(found[2])) if found else ("", 0)
            return OF_ITS_OWN not in str(why), files.setdefault(file, len(files)), line

        refuse_all(sorted(self.found.values(), key=order))
