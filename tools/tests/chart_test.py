"""Tests of `chart`. Charts are read as XML; what they have to show is asked of the program: what was told, put and
taken, and the routes at the end."""
import re
import unittest
import xml.etree.ElementTree

from support import TOP, asked_program, run

from bgpnet import charts
from bgpnet.network import path_text, read_network, routes_of, words_of
from bgpnet.tracing import COMMANDS, events_of, orders_of

SVG = "{http://www.w3.org/2000/svg}"
ITEMS = set(charts.COLOURS)


class Seen:
    """What a reader sees in a chart of one column: the line of each router, arrows as (kind, from, to), the highest
    first, with their points; kept paths with their routers from the top down; the places of recordings, of puts and of
    cuts; the texts of each class, their boxes, and the size."""

    def __init__(self, text):
        root = xml.etree.ElementTree.fromstring(text)
        self.width, self.height = float(root.get("width")), float(root.get("height"))
        elements = [element for element in root.iter() if element.get("class")]
        self.lines = {int(element.get("x")): int(element.text) for element in elements
                      if element.get("class") == "number"}
        self.arrows, self.ways, self.paths, self.recordings, self.puts, self.cuts = [], [], [], [], [], []
        self.texts, self.boxes, self.numbers = {}, [], []
        self.sizes = [float(size) for size in re.findall(r"(\d+)px", text.split("</style>")[0]) if size != "3"]
        for element in elements:
            kind, *more = element.get("class").split(" ")
            if element.tag == SVG + "path" and kind in ITEMS:
                points = points_of(element)
                self.arrows.append((kind, self.near(points[0][0]), self.lines.get(points[-1][0]), points))
            elif kind == "cut":
                self.cuts.append(points_of(element))
            elif element.tag == SVG + "circle" and kind.startswith("put-"):
                self.puts.append((int(element.get("cx")), int(element.get("cy"))))
            elif kind == "recording":
                self.recordings.append((self.lines[int(element.get("x")) + 5], int(element.get("y")) + 5))
            elif element.tag == SVG + "text":
                self.texts.setdefault(kind, []).append(element.text)
                if kind == "path":
                    self.paths.append((self.lines[int(element.get("x"))], element.text))
                if kind == "event":
                    self.numbers.append((int(element.text), int(element.get("y")) - 4))
                if kind in ("said", "order", "state"):
                    self.boxes.append(self.box(element, more))
        self.arrows.sort(key=lambda arrow: arrow[3][0][1])

    @staticmethod
    def box(element, more):
        width, x, y = charts.LETTER * len(element.text), float(element.get("x")), float(element.get("y"))
        left = x - (width if "before" in more else width / 2 if "middle" in more else 0)
        return left, y - 10, left + width, y + 3

    def near(self, x):
        """The router on whose line something begins, or beside a box on it."""
        return self.lines[min(self.lines, key=lambda line: abs(line - x))]

    def of(self, kind):
        return [arrow[1:3] for arrow in self.arrows if arrow[0] == kind]


def points_of(element):
    return [tuple(map(int, point.split())) for point in element.get("d")[1:].split("L")]


def charted(*words, given=b""):
    status, out, error = run("chart", *words, given=given)
    assert (status, error) == (0, ""), error
    return Seen(out)


def made(path):
    """The chart of a file, without a start of the tool."""
    text = (TOP / path).read_text()
    network = read_network(asked_program(), text, path)[0]
    events = events_of(asked_program().trace(text, path), orders_of(text))
    return Seen(charts.chart_of(network, events, charts.Shown()).text([]))


def played(path):
    """The lines of a trace behind its network, and the routes at the end."""
    text = (TOP / path).read_text()
    trace = asked_program().answer(["trace"], text, path)
    return trace[trace.index("schedule") + 1:], routes_of(asked_program().answer(["play"], text, path))


class Chart(unittest.TestCase):
    def test_an_arrow_for_each_item(self):
        for path in sorted((TOP / "examples/play").glob("*.txt")):
            lines, routes = played(path)
            orders = [words_of(line) for line in lines if words_of(line)]
            told = sum(line.startswith("# tells ") for line in lines)
            others = sum(line.startswith("# sends ") and not line.startswith("# sends update") for line in lines)
            with self.subTest(example=path.name):
                seen = made(path)
                updates = [arrow for arrow in seen.arrows if arrow[0] in charts.UPDATES]
                self.assertEqual((len(updates), len(seen.arrows) - len(updates)), (told, others))
                self.assertEqual(len(seen.texts.get("order", [])), sum(order[0] in COMMANDS for order in orders))
                kept = {router: "none" for router in seen.lines.values()} | dict(seen.paths)
                if len({prefix for _, prefix in routes}) == 1:
                    self.assertEqual({router: path_text(way) for (router, _), way in routes.items()}, kept)

    def test_a_session(self):
        seen = charted("examples/play/session.txt")
        self.assertEqual(seen.of("dial"), [(1, 2), (2, 1)])
        self.assertEqual(sorted(seen.of("open")), [(1, 2), (2, 1)])
        self.assertEqual(sorted(seen.of("keepalive")), [(1, 2), (2, 1)])
        self.assertEqual(seen.of("announce"), [(1, 2), (2, 1)])
        self.assertEqual(sorted(seen.texts["order"]), ["originate 10.1.0.0/16", "start 1", "start 2"])
        self.assertEqual(sorted(seen.texts["state"]), ["1 up", "2 up"])
        self.assertEqual(seen.paths, [(1, "1"), (2, "2-1")])

    def test_names_of_routers(self):
        """Heads and paths have the names of routers, a long name is cut in the head alone."""
        text = ("# 1 called core\n# 2 called west-gateway\nrouter 1 10.0.0.1\nrouter 2 10.0.0.2\nlink 1 2\n"
                "origin 1 10.1.0.0/16\nschedule\nstart 1 2\nstart 2 1\noriginate 1 10.1.0.0/16\nrounds 10\n")
        status, out, error = run("chart", "-", given=text.encode())
        self.assertEqual((status, error), (0, ""))
        texts = {}
        for element in xml.etree.ElementTree.fromstring(out).iter(SVG + "text"):
            texts.setdefault(element.get("class").split(" ")[0], []).append(element.text)
        self.assertEqual(texts["number"], ["core", "west-gatew\u2026"])
        self.assertEqual(texts["path"], ["core", "west-gateway-core"])
        self.assertIn("core", texts["said"])

    def test_a_snapshot(self):
        seen = charted("examples/play/snapshot.txt")
        self.assertEqual(sorted(seen.of("marker")), [(1, 2), (2, 1)])
        self.assertEqual(sorted(router for router, _ in seen.recordings), [1, 2])
        self.assertEqual(sorted(seen.texts["verdict"]), ["cut 1", "snapshot 1 settled"])

    def test_what_is_in_flight_crosses_the_cut(self):
        """An UPDATE leaves above the recording of its router and ends below that of the other where `cut` says that it
        is in flight, and nowhere else; it is put where its dot is."""
        for name, flights in (("in-flight", [("withdraw", 1, 2)]), ("at-rest", []),
                              ("disagree", [("announce", one, other) for one in (2, 3) for other in (1, 5 - one)])):
            seen = charted(f"examples/cut/{name}.txt")
            places = dict(seen.recordings)
            crossing = [(kind, one, other) for kind, one, other, points in seen.arrows if kind in charts.UPDATES
                        and points[0][1] < places[one] and other and points[-1][1] > places[other]]
            self.assertEqual(sorted(crossing), sorted(flights))
            back = [kind for kind, one, other, points in seen.arrows
                    if kind != "marker" and points[0][1] > places[one] and other and points[-1][1] < places[other]]
            self.assertEqual(back, [])
            (cut,) = seen.cuts
            self.assertEqual([(seen.lines[x], y) for x, y in cut[1:-1]], sorted(seen.recordings))

    def test_a_put_that_comes_later(self):
        text = (TOP / "examples/cut/in-flight.txt").read_text().replace("advertise 1\nput 1 2\n", "advertise 1\n")
        seen = charted("-", given=text.encode())
        places = dict(seen.recordings)
        (points,) = [points for kind, one, _, points in seen.arrows if (kind, one) == ("withdraw", 1)]
        self.assertLess(points[0][1], places[1])
        put = next(y for x, y in seen.puts if x == points[1][0] and points[0][1] < y)
        self.assertGreater(put, places[1])
        self.assertEqual(points[1][0], points[2][0])

    def test_seconds_and_notifications(self):
        seen = charted("examples/play/hold-time.txt")
        self.assertEqual([text for text in seen.texts["state"] if text.endswith(" s")], ["90 s"])
        seen = charted("examples/play/reset.txt")
        self.assertEqual(seen.of("notification"), [(2, 1)])

    def test_a_withdrawal_in_octets(self):
        seen = charted("examples/play/withdrawal.txt")
        self.assertIn("withdraw", [arrow[0] for arrow in seen.arrows])
        self.assertIn("none", [path for _, path in seen.paths])
        self.assertIn("octets", [arrow[0] for arrow in charted("examples/play/octets.txt").arrows])

    def test_the_numbers_of_events(self):
        lines, _ = played("examples/play/session.txt")
        orders = [line for line in lines if words_of(line)]
        seen = charted("examples/play/session.txt")
        at = {y: number for number, y in seen.numbers}
        for kind, one, other, points in seen.arrows:
            if kind == "dial":
                self.assertEqual(orders[at[points[0][1]] - 1], f"put {one} {other}")
                self.assertEqual(orders[at[points[-1][1]] - 1], f"take {other} {one}")

    def test_labels_stand_apart(self):
        for name in ("disagree", "ring", "reset-again", "link-flaps"):
            boxes = made(f"examples/play/{name}.txt").boxes
            overlapping = sum(charts.common(one, other) > 20 for at, one in enumerate(boxes) for other in boxes[:at])
            self.assertLessEqual(overlapping, len(boxes) // 20)

    def test_letters_on_a_slide(self):
        for words in (["examples/play/session.txt"], ["examples/cut/in-flight.txt", "--from-line", "19"],
                      ["examples/play/disagree.txt", "--updates", "--to", "100"]):
            seen = charted(*words, "--slide")
            self.assertGreaterEqual(min(960 / seen.width, 540 / seen.height) * min(seen.sizes), 12)
            self.assertGreater(len(seen.arrows), 3)
        status, out, error = run("chart", "--slide", "examples/play/ring.txt")
        self.assertEqual((status, out), (1, ""))
        last = int(re.search(r"--to (\d+) has room", error).group(1))
        self.assertEqual(run("chart", "--slide", "examples/play/ring.txt", "--to", last)[0], 0)

    def test_columns_have_what_one_has(self):
        whole = charted("examples/play/disagree.txt")
        status, out, _ = run("chart", "examples/play/disagree.txt", "--columns", "3")
        root = xml.etree.ElementTree.fromstring(out)
        texts = sorted(element.text for element in root.iter(SVG + "text") if element.get("class") != "number")
        written = [text for kind, own in whole.texts.items() if kind != "number" for text in own]
        self.assertEqual((status, texts), (0, sorted(written)))
        self.assertLess(float(root.get("height")) * 2, whole.height)
        heads = [element for element in root.iter(SVG + "path") if " ends-" in element.get("class", "")]
        self.assertEqual(len(heads), len(whole.arrows))
        for element in root.iter(SVG + "path"):
            if element.get("class", "").split(" ")[0] in ITEMS:
                self.assertTrue(all(charts.TOP <= y <= float(root.get("height")) for _, y in points_of(element)))

    def test_what_is_said_of_snapshots(self):
        """In words, inside the picture."""
        for name, said in (("snapshot-not-up", "no snapshot 1: session 1-2 is down"),
                           ("snapshot-closed", "no snapshot 1: session 1-2 closed"),
                           ("snapshot-superseded", "no snapshot 1: 1 began a later one"),
                           ("snapshot-pending", "snapshot 1 moving, 1 has still to choose or to tell"),
                           ("snapshot-in-flight", "snapshot 1 moving, an UPDATE from 1 to 2 is in flight"),
                           ("snapshot", "snapshot 1 settled")):
            seen = charted(f"examples/play/{name}.txt", "--updates")
            self.assertIn(said, seen.texts["verdict"])
            self.assertGreater(seen.width, charts.LEFT - 28 + charts.LETTER * len(said))

    def test_columns_end_where_no_arrow_is_under_way(self):
        """Of DISAGREE's UPDATEs none is parted, though they cross."""
        for words in (["examples/play/disagree.txt", "--updates", "--columns", "3"],
                      ["examples/play/disagree.txt", "--updates", "--columns", "2"]):
            root = xml.etree.ElementTree.fromstring(run("chart", *words)[1])
            heads = {kind: 0 for kind in ITEMS}
            parts = dict(heads)
            for element in root.iter(SVG + "path"):
                kind, *more = element.get("class", "").split(" ")
                if kind in ITEMS:
                    parts[kind] += 1
                    heads[kind] += bool(more)
            self.assertEqual(parts, heads, words)

    def test_no_starts_among_updates(self):
        whole = charted("examples/play/disagree.txt")
        seen = charted("examples/play/disagree.txt", "--updates")
        self.assertTrue(any(text.startswith("start") for text in whole.texts["order"]))
        self.assertEqual(seen.texts["order"], [text for text in whole.texts["order"] if not text.startswith("start")])

    def test_words_that_make_room(self):
        words = ["examples/play/disagree.txt", "--slide"]
        status, _, error = run("chart", *words)
        self.assertEqual(status, 1)
        points, last = re.search(r"--points (\d+) or --to (\d+) has room", error).groups()
        self.assertEqual(run("chart", *words, "--points", points)[0], 0)
        self.assertEqual(run("chart", *words, "--points", int(points) + 1)[0], 1)
        self.assertEqual(run("chart", *words, "--to", last)[0], 0)
        routers = [f"router {at} 10.0.0.{at}" for at in range(1, 31)] + [f"link {at} {at + 1}" for at in range(1, 30)]
        status, _, error = run("chart", "-", "--slide", given="\n".join([*routers, ""]).encode())
        self.assertEqual((status, error), (1, "chart: 0 rows of 30 routers have no room on a slide; --from, --from-line, "
                                              "--updates and --prefix show a part\n"))
        network = b"router 1 10.0.0.1\nrouter 2 10.0.0.2\nlink 1 2\n"
        long = network + b"schedule\n" + b"start 1 2\n" * (charts.MOST_ROWS + 1)
        last = re.search(r"--to (\d+) has room", run("chart", "-", given=long)[2])[1]
        self.assertEqual(run("chart", "-", "--to", last, given=long)[0], 0)

    def test_a_part(self):
        whole = charted("examples/play/disagree.txt")
        updates = charted("examples/play/disagree.txt", "--updates")
        self.assertEqual({arrow[0] for arrow in updates.arrows}, {"announce"} & {arrow[0] for arrow in whole.arrows})
        self.assertEqual(sorted(updates.of("announce")), sorted(whole.of("announce")))
        self.assertEqual(updates.paths, whole.paths)
        last = len([line for line in played("examples/play/disagree.txt")[0] if words_of(line)])
        both = [charted("examples/play/disagree.txt", *words)
                for words in (("--to", last // 2), ("--from", last // 2 + 1))]
        self.assertEqual([path for seen in both for path in seen.paths], whole.paths)

    def test_a_part_by_lines(self):
        text = (TOP / "examples/cut/in-flight.txt").read_text().splitlines()
        line = text.index("withdraw 1 10.1.0.0/16") + 1
        seen = charted("examples/cut/in-flight.txt", "--from-line", line)
        self.assertEqual(sorted(seen.texts["order"]), ["snapshot 1", "snapshot 1", "withdraw 10.1.0.0/16"])
        self.assertEqual({arrow[0] for arrow in seen.arrows}, {"withdraw", "marker"})
        seen = charted("examples/cut/in-flight.txt", "--to-line", line)
        self.assertEqual(seen.texts["order"][-1], "withdraw 10.1.0.0/16")
        self.assertEqual((seen.cuts, seen.recordings), ([], []))

    def test_one_prefix(self):
        text = ("router 1 10.0.0.1\nrouter 2 10.0.0.2\nlink 1 2\norigin 1 10.1.0.0/16\norigin 2 10.2.0.0/16\nschedule\n"
                "start 1 2\nstart 2 1\noriginate 1 10.1.0.0/16\noriginate 2 10.2.0.0/16\nrounds 40\n").encode()
        seen = charted("-", "--prefix", "10.2.0.0/16", given=text)
        self.assertEqual(seen.paths, [(2, "2"), (1, "1-2")])
        self.assertEqual(seen.of("announce"), [(2, 1), (1, 2)])

    def test_a_trace_is_a_schedule(self):
        status, out, _ = run("chart", "examples/play/reset.txt")
        trace = asked_program().answer(["trace"], (TOP / "examples/play/reset.txt").read_text(), "reset")
        self.assertEqual(run("chart", "-", given="\n".join(trace).encode()), (status, out, ""))

    def test_refusals(self):
        network = b"router 1 10.0.0.1\nrouter 2 10.0.0.2\nlink 1 2\n"
        self.assertEqual(run("chart", "-", given=network + b"schedule\nstart 1 1\n"),
                         (1, "", "chart: -:5: E1: a session with a router that is no peer: start 1 1\n"))
        self.assertEqual(run("chart", "-", "--prefix", "x", given=network), (1, "", "chart: 'x' is no prefix\n"))
        long = b"start 1 2\n" * (charts.MOST_ROWS + 1)
        status, out, error = run("chart", "-", given=network + b"schedule\n" + long)
        self.assertEqual((status, out, error[:12]), (1, "", "chart: more "))
        self.assertEqual(run("chart", "-", "--from", "0", given=network)[0], 2)


if __name__ == "__main__":
    unittest.main()
