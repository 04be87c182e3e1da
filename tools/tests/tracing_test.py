"""What a moment of a run says, beside what `play` says of the text up to there."""
import unittest

from bgpnet.network import Network, parts_of, routes_of, words_of
from support import TOP, asked_program
from bgpnet.tracing import Moment, events_of, orders_of

PLAY = TOP / "examples/play"
RESTARTED = """\
router 1 10.0.0.1
router 2 10.0.0.2
router 3 10.0.0.3
link 1 2
link 2 3
origin 1 10.1.0.0/16
origin 3 10.3.0.0/16
schedule
start 1 2
start 2 1
start 2 3
start 3 2
originate 1 10.1.0.0/16
originate 3 10.3.0.0/16
rounds 60
restart 2
rounds 1
start 2 1
rounds 30
restart 3
stop 1 2
rounds 20
withdraw 1 10.1.0.0/16
rounds 5
"""


class Moments(unittest.TestCase):
    def behind_each_order(self, text):
        """What is kept behind each order, as the run says it and as `play` does."""
        above, _, rest = parts_of(text)
        network, program = Network(above), asked_program()
        events, moment, at = events_of(program.trace(text, "a run"), orders_of(text)), Moment(network), 0
        for number, line in enumerate(rest, len(above) + 1):
            if words_of(line):
                while at < len(events) and events[at].line <= number:
                    moment.pass_event(events[at])
                    at += 1
                said = program.answer(["play"], "\n".join([*above, *rest[:number - len(above)]]) + "\n", "a run")
                yield line, dict(moment.kept), routes_of(said[said.index("now") + 1:])

    def test_what_routers_keep(self):
        texts = [RESTARTED] + [(PLAY / f"{name}.txt").read_text() for name in ("reset", "link-flaps", "withdrawal", "crash")]
        for text in texts:
            for line, kept, said in self.behind_each_order(text):
                with self.subTest(line):
                    self.assertEqual(kept, said)
