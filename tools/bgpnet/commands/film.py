"""Draws what a schedule does to a network, as SVG: a picture behind each step, side by side.

    tools/film examples/play/wedgie-whole.txt > film.svg
    tools/film examples/play/withdrawal.txt --each > film.svg

A step begins with a comment `# title: TEXT`, which is its title, and with a run of commands (start, stop, reset,
originate, withdraw, restart); it has the orders up to the next step, or with --each a step is one order. What `bgpnet
trace` says of the run behind each step is drawn: routes; crossed out, links whose session is not up at both ends;
dotted, links whose session is up and over which nothing came for some seconds; a ring around each router whose route is
another than in the picture before. Below stands how snapshots came out, or what `bgpnet check` says of the routes in
the network without the links that are down, and how many UPDATEs are on their way. --from and --to draw some of the
steps, by their numbers."""
from bgpnet.films import MOST_PICTURES, MOST_STEPS, Shown, film_of
from bgpnet.network import network_asked
from bgpnet.program import Words, count, tool, write_text


@tool
def main():
    words = Words(__doc__)
    words.add_argument("schedule", metavar="SCHEDULE", help="an input of `bgpnet play`, - for the standard input")
    words.add_argument("--each", action="store_true", help="a picture behind each order")
    words.add_argument("--prefix", metavar="PREFIX", help="the prefix that is drawn (the first that an origin has)")
    number = count(1, MOST_STEPS)
    words.add_argument("--from", dest="first", type=number, metavar="N", default=1, help="the first step to draw (1)")
    words.add_argument("--to", dest="last", type=number, metavar="N", default=MOST_STEPS, help="the last one")
    words.add_argument("--columns", type=count(1, MOST_PICTURES), metavar="N", default=3, help="pictures in a row (3)")
    words.add_argument("--no-rules", dest="rules", action="store_false", help="draw no rules and no routes in words")
    words.add_argument("--slide", action="store_true", help="as wide and high as a slide, 16 to 9")
    asked = words.parse_args()
    program, text, network, *_ = network_asked(asked, asked.schedule)
    shown = Shown(asked.prefix, asked.each, asked.first, asked.last, asked.rules, asked.columns, asked.slide)
    write_text(film_of(program, network, text, asked.schedule, shown))
    return 0
