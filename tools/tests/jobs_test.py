"""Work of several threads is told in order, and what fails fails where it stands."""
import argparse
import contextlib
import io
import threading
import time
import unittest

from support import TOP, load, run
from bgpnet import jobs


class InOrder(unittest.TestCase):
    def test_the_order_is_that_of_the_things(self):
        for number in (1, 2, 7):
            made = jobs.in_order(lambda thing: (time.sleep(0.01 * (thing % 3)), thing)[1], range(40), number, "things")
            self.assertEqual(list(made), list(range(40)))

    def test_so_many_at_a_time(self):
        running, most, lock = set(), [0], threading.Lock()

        def make(thing):
            with lock:
                running.add(thing)
                most[0] = max(most[0], len(running))
            time.sleep(0.01)
            with lock:
                running.discard(thing)

        list(jobs.in_order(make, range(20), 3, "things"))
        self.assertEqual(most, [3])

    def test_what_fails(self):
        def make(thing):
            if thing == 5:
                raise ValueError(thing)
            return thing

        made = []
        with self.assertRaises(ValueError):
            for thing in jobs.in_order(make, range(1000), 4, "things"):
                made.append(thing)
        self.assertEqual(made, [0, 1, 2, 3, 4])

    def test_random_sets_are_told_by_their_seeds(self):
        """`beside` runs some at once, here without routers, and the last ones end first."""
        class Process:
            def __init__(self, *words):
                self.seed, self.returncode = int(words[words.index("--seed") + 1]), 0

            def communicate(self):
                time.sleep(0.01 * (9 - self.seed))
                return f"agrees 2 routers {self.seed} routes\n", None

        beside, out = load("beside"), io.StringIO()
        beside.one = Process
        with contextlib.redirect_stdout(out):
            status = beside.random_sets(argparse.Namespace(seed=3, random=6, jobs=6, keep=None))
        self.assertEqual((status, out.getvalue().splitlines()), (0, [
            *(f"seed {seed}: agrees 2 routers {seed} routes" for seed in range(3, 9)),
            "6 sets from seed 3: 6 agrees; 33 routes compared"]))

    def test_answers_are_the_same_with_any_number(self):
        network = TOP / "examples/naughty-gadget.txt"
        for tool, *words in (("settle", "--play", "12", "--json"), ("whatif", "--fail-each-link", "--back", "--json")):
            one, many = (run(tool, network, *words, "--jobs", number) for number in ("1", "6"))
            self.assertEqual(one, many)
            self.assertTrue(one[1])
