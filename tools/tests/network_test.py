"""Tests of `network`: its limits are those of the program, and what it reads is what the program reads."""
import itertools
import pathlib
import tempfile
import unittest

from support import asked_program

from bgpnet import network
from bgpnet.network import Prefix, distances, read_path
from bgpnet.program import Program, Refused


def text_of(routers, links, more=""):
    return "".join([*(f"router {router} 10.0.{place // 256}.{place % 256}\n" for place, router in enumerate(routers, 1)),
                    *(f"link {one} {other}\n" for one, other in links)]) + more


def chain(size):
    return text_of(range(1, size + 1), zip(range(1, size), range(2, size + 1)))


class Limits(unittest.TestCase):
    """Each is the greatest that the program takes."""

    def is_taken(self, text):
        return asked_program().ask(["check"], text)[0] == 0

    def both(self, make, limit):
        self.assertEqual([self.is_taken(make(limit)), self.is_taken(make(limit + 1))], [True, False])

    def test_routers(self):
        self.both(chain, network.MOST_ROUTERS)

    def test_links(self):
        self.both(lambda size: text_of(range(1, size + 2), [(1, other) for other in range(2, size + 2)]), network.MOST_LINKS)

    def test_prefixes(self):
        self.both(lambda number: chain(1) + "".join(f"origin 1 10.{at // 256}.{at % 256}.0/24\n" for at in range(number)),
                  network.MOST_PREFIXES)

    def test_rules(self):
        self.both(lambda number: chain(2) + "".join(f"rank 2 10.{at}.0.0/16 2-1\n" for at in range(number)), network.MOST_RULES)

    def test_paths(self):
        middles = list(itertools.islice((middle for size in range(4) for middle in itertools.permutations(range(3, 9), size)), 40))
        self.both(lambda number: chain(9) + "rank 2 10.0.0.0/8 " + " ".join(
            "-".join(map(str, (2, *middle, 1))) for middle in middles[:number]) + "\n", network.MOST_PATHS)

    def test_routers_of_a_path(self):
        self.both(lambda size: chain(20) + f"rank {size} 10.0.0.0/8 {'-'.join(map(str, range(size, 0, -1)))}\n",
                  network.LONGEST_PATH)

    def test_as_numbers(self):
        self.both(lambda number: text_of([number], []), network.GREATEST_OF_TWO_OCTETS)
        self.both(lambda number: "asn 4\n" + text_of([number], []), network.GREATEST_ASN)


class Read(unittest.TestCase):
    def test_prefixes(self):
        for word, text in (("10.1.2.3/16", "10.1.0.0/16"), ("010.1.0.0/016", "10.1.0.0/16"), ("255.255.255.255/0", "0.0.0.0/0")):
            self.assertEqual(str(Prefix.read(word)), text)
        self.assertEqual(repr(Prefix.read("10.0.0.0/8")), "Prefix.read('10.0.0.0/8')")
        self.assertLess(Prefix.read("10.0.0.0/8"), Prefix.read("10.0.0.0/16"))

    def test_paths(self):
        self.assertEqual([read_path(word) for word in ("none", "2-03-1")], [(), (2, 3, 1)])

    def test_distances(self):
        peers = {1: [2, 3], 2: [1, 4], 3: [1], 4: [2], 5: []}
        self.assertEqual(list(distances(peers, 1).items()), [(1, 0), (2, 1), (3, 1), (4, 2)])
        self.assertEqual(distances(peers, 1, [frozenset((2, 1))]), {1: 0, 3: 1})


class Said(unittest.TestCase):
    def test_lines_besides_that_of_a_refusal(self):
        """What the program says of other things, above the refusal or where it takes the text, is passed over."""
        with tempfile.TemporaryDirectory() as folder:
            path = pathlib.Path(folder, "program")
            path.write_text("#!/bin/sh\necho 'bgpnet: rank 2 10.2.0.0/16: for nothing' >&2\n"
                            "[ $1 = safe ] && { echo prefix 10.1.0.0/16 safe; exit; }\n"
                            "printf 'bgpnet: line 3: N1: unknown\nbgpnet: the nearest is link\n' >&2\necho refused 3 N1\nexit 1\n")
            path.chmod(0o755)
            with self.assertRaises(Refused) as raised:
                Program(str(path)).answer(["check"], "", "net")
            self.assertEqual((raised.exception.line, raised.exception.code, str(raised.exception)),
                             (3, "N1", "net:3: N1: unknown; the nearest is link"))
            self.assertEqual(Program(str(path)).answer(["safe"], "", "net"), ["prefix 10.1.0.0/16 safe"])


if __name__ == "__main__":
    unittest.main()
