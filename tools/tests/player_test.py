"""The page that plays a run: what it has of the run, what it says of routers beside `why` and `play`, and what a browser
does with it. Without Node or Chromium the tests that need them are skipped."""
import functools
import html.parser
import json
import re
import shutil
import subprocess
import unittest

from browser import Page, browser_path
from bgpnet.network import Network, parts_of, routes_of
from support import TOP, asked_program, run, start
from bgpnet.tracing import events_of, orders_of

EXAMPLES = [TOP / "examples" / name for name in (
    "play/wedgie-whole.txt", "play/withdrawal.txt", "play/session.txt", "cut/disagree.txt", "cut/in-flight.txt")]
NODE = shutil.which("node")
# What Node prints of a page: the lines of `why` for each router, behind events of these numbers.
ASKS = """\
const fs = require("fs"), {Run} = require(process.argv[1]);
const run = new Run(JSON.parse(fs.readFileSync(0, "utf8")));
const said = JSON.parse(process.argv[2]).map((at) => run.numbers.map((router) => run.behind(at).why(router)));
console.log(JSON.stringify(said));
"""


def page_of(*words, given=b""):
    status, out, err = run("player", *words, given=given)
    assert (status, err) == (0, ""), err
    return out


@functools.lru_cache(maxsize=None)
def page_of_file(path):
    return page_of(path)


def run_in(page):
    """What the page knows of its run."""
    return json.loads(re.search(r'<script id="run" type="application/json">(.*?)</script>', page, re.S)[1])


class Traced:
    """A text, the network and the events of its run; and the text of the same run up to an event."""

    def __init__(self, path):
        self.text = path.read_text(encoding="latin-1")
        self.lines = parts_of(self.text)[0]
        self.network, self.program = Network(self.lines), asked_program()
        self.events = events_of(self.program.trace(self.text, str(path)), orders_of(self.text))

    def cut(self, at):
        return "\n".join(self.lines + [" ".join(event.words) for event in self.events[:at]]) + "\n"

    def numbers(self, most):
        """At most so many numbers of events, from none on to all."""
        whole = len(self.events)
        return sorted({0, whole, *(whole * part // most for part in range(most))})

    def why(self, at, router):
        """What `why` says of a router behind an event, but for incarnations, outboxes, timers and what is on its way."""
        return [" ".join(line.split()[:3]) if line.startswith("peer ") else line
                for line in self.program.answer(["why", str(router)], self.cut(at), "a run")
                if not line.startswith("  timers ")]

    def kept(self, at):
        return routes_of(self.program.answer(["play"], self.cut(at), "a run"))


class Reader(html.parser.HTMLParser):
    """The elements of a page, and what they name elsewhere."""

    def __init__(self, page):
        super().__init__()
        self.scripts, self.elsewhere = 0, []
        self.feed(page)

    def handle_starttag(self, tag, attributes):
        self.scripts += tag == "script"
        self.elsewhere += [value for name, value in attributes if name in ("src", "href", "srcset", "data", "action")]


class Made(unittest.TestCase):
    def test_the_events_are_those_of_the_trace(self):
        for path in EXAMPLES:
            known, traced = run_in(page_of_file(path)), Traced(path)
            with self.subTest(path.name):
                self.assertEqual(known["events"], [[" ".join(event.words), event.line, *event.said] for event in traced.events])
                self.assertEqual([router["number"] for router in known["routers"]], list(map(str, traced.network.routers)))

    def test_nothing_comes_from_elsewhere(self):
        for path in EXAMPLES:
            page = page_of_file(path)
            self.assertEqual(Reader(page).elsewhere, [])
            self.assertEqual(set(re.findall(r"https?://[^\"'\s]+", page)), {"http://www.w3.org/2000/svg"})
            self.assertNotIn("@import", page)

    def test_texts_end_no_script_and_no_element(self):
        text = EXAMPLES[1].read_text().replace("schedule\n", "schedule\n# </script><b>\n<!-- x\n", 1).replace("<!-- x\n", "")
        name = b"# 1 called a\n"
        page = page_of("-", given=name + text.encode())
        self.assertEqual(Reader(page).scripts, 2)
        self.assertIn("&lt;/script&gt;&lt;b&gt;", page)
        self.assertEqual(run_in(page)["routers"][0]["name"], "a")

    def test_an_event_to_end_at(self):
        known = run_in(page_of("--to", "7", EXAMPLES[0]))
        self.assertEqual(len(known["events"]), 7)
        self.assertEqual(known["events"], run_in(page_of_file(EXAMPLES[0]))["events"][:7])

    def test_the_rules_are_those_that_cover(self):
        known = run_in(page_of_file(EXAMPLES[3]))
        network = Traced(EXAMPLES[3]).network
        for prefix in network.origins:
            for router in network.routers:
                rule, at = network.rule(router, prefix), known["ruled"].get(str(router), {}).get(str(prefix))
                self.assertEqual(rule and ["-".join(map(str, path)) for path in rule.paths], None if at is None else known["rules"][at])


class Refused(unittest.TestCase):
    def refuses(self, said, *words, given=b""):
        status, out, err = run("player", *words, given=given)
        self.assertEqual((status, out), (1, ""))
        self.assertIn(said, err)

    def test_what_is_no_schedule(self):
        self.refuses("no schedule", "-", given=b"router 1 10.0.0.1\n")

    def test_a_line_that_the_program_refuses(self):
        text = EXAMPLES[1].read_text() + "originate 9 10.1.0.0/16\n"
        self.refuses("-:", "-", given=text.encode())

    def test_too_many_events(self):
        text = "\n".join(parts_of((TOP / "examples/disagree.txt").read_text())[0][:-1] + [""])
        orders = [f"start {end} {other}" for end in (1, 2, 3) for other in (1, 2, 3) if end != other]
        text += "\n".join(["schedule", *orders, "originate 1 10.1.0.0/16", "ticks 3000", ""])
        self.refuses("--to 5000", "-", given=text.encode())
        self.assertEqual(len(run_in(page_of("--to", "5000", "-", given=text.encode()))["events"]), 5000)

    def test_words(self):
        status, _, err = start("player", "--to", "5001", EXAMPLES[0])
        self.assertEqual(status, 2)
        self.assertIn("5001", err)


@unittest.skipUnless(NODE, "no Node")
class Known(unittest.TestCase):
    def test_the_page_says_what_why_says(self):
        for path in EXAMPLES:
            traced = Traced(path)
            numbers = traced.numbers(24)
            done = subprocess.run([NODE, "-e", ASKS, str(TOP / "tools/bgpnet/page/run.js"), json.dumps(numbers)],
                                  input=json.dumps(run_in(page_of_file(path))), capture_output=True, text=True)
            self.assertEqual(done.stderr, "")
            for at, said in zip(numbers, json.loads(done.stdout)):
                with self.subTest(path.name, event=at):
                    self.assertEqual(said, [traced.why(at, router) for router in traced.network.routers])


# In the page: steps and clicks by buttons and keys, and what it says behind them.
WALKS = """\
const said = [], key = (name) => document.body.dispatchEvent(new KeyboardEvent("keydown", {key: name, bubbles: true}));
const tell = () => ({event: find("event").textContent, why: find("why").textContent, line: document.querySelector("#lines .lit")?.value || 0,
  hash: location.hash, kept: Object.fromEntries(run.numbers.map((router) => [router, page.state.path(router, page.prefix)]))});
find("first").click();
for (let at = 0; at < 50 && at <= run.events.length; at += 1) {
  const router = run.numbers[at % run.numbers.length];
  document.querySelector(`[data-router="${router}"]`).dispatchEvent(new MouseEvent("click", {bubbles: true}));
  said.push({at: page.at, router, ...tell()});
  if (at % 2) key("ArrowRight"); else find("next").click();
}
key("End"); const last = tell();
key("Home"); const first = tell();
key("n"); const line = tell();
key("p"); const back = tell();
location.hash = "#event=12"; follow(); const linked = tell();
answer({said, last, first, line, back, linked});
"""
TIMES = """\
const times = [];
find("first").click();
const far = run.events.length - 60;
show(far);
for (let at = 0; at < 50; at += 1) {
  const begun = performance.now();
  find("next").click();
  document.body.getBoundingClientRect();
  times.push(performance.now() - begun);
}
times.sort((one, other) => one - other);
answer({times, at: page.at, far});
"""

SEEN = """
const places = [];
for (const height of [1000, 720, 600]) {
  document.getElementById("messages").style.maxHeight = `${0.84 * height}px`;
  show(run.events.length - 1);
  const box = document.getElementById("messages"), {top} = box.getBoundingClientRect();
  const rows = [...document.querySelectorAll("#chart .event")].map((row) => row.getBoundingClientRect().bottom);
  places.push([height, document.querySelector("#chart .head").getBoundingClientRect().top, Math.max(...rows), top,
    top + box.clientHeight]);
}
answer(places);
"""


@unittest.skipUnless(browser_path(), "no Chromium")
class Browsed(unittest.TestCase):
    def test_fifty_events_step_by_step(self):
        for path in EXAMPLES[:1] + EXAMPLES[3:4]:
            traced = Traced(path)
            walked = Page(page_of_file(path)).answers(WALKS)
            prefix = next(iter(traced.network.origins))
            for said in walked["said"]:
                with self.subTest(path.name, event=said["at"]):
                    at = said["at"]
                    self.assertEqual(said["why"].split("\n"), traced.why(at, int(said["router"]))[1:])
                    kept = traced.kept(at)
                    self.assertEqual({int(one): path for one, path in said["kept"].items()},
                                     {one: "-".join(map(str, kept[one, prefix])) or "none" for one in traced.network.routers})
                    self.assertEqual(said["line"], traced.events[at - 1].line if at else 0)
                    self.assertTrue(said["hash"].startswith(f"#event={at}&router={said['router']}"))
            self.assertEqual([said["at"] for said in walked["said"]], list(range(len(walked["said"]))))
            whole = len(traced.events)
            self.assertIn(f"event {whole} of {whole}", walked["last"]["event"])
            self.assertIn("before the first", walked["first"]["event"])
            self.assertIn("before the first", walked["back"]["event"])
            self.assertEqual(walked["line"]["line"], traced.events[0].line)
            self.assertIn(f"event {min(12, whole)} of", walked["linked"]["event"])

    def test_the_last_row_is_seen(self):
        """Of the event that is shown, with the routers above it, on screens of several heights."""
        places = Page(page_of_file(EXAMPLES[0])).answers(SEEN)
        for height, head, row, top, bottom in places:
            with self.subTest(height=height):
                self.assertLessEqual(top, head)
                self.assertLessEqual(row, bottom)

    def test_a_large_run_is_small_and_quick(self):
        status, text, err = run("topology", "--routers", "64", "--seed", "3", "--rules", "shortest")
        self.assertEqual((status, err), (0, ""))
        page = page_of("--to", "5000", "-", given=text.encode())
        self.assertGreater(len(run_in(page)["events"]), 3000)
        self.assertLess(len(page.encode()), 3 * 10**6)
        timed = Page(page).answers(TIMES)
        self.assertEqual(timed["at"], timed["far"] + 50)
        self.assertLess(timed["times"][25], 50)

