"""Draws the messages of a run, as SVG: a line down for each router, an arrow for each message and item that passes.

    tools/chart examples/play/session.txt > chart.svg
    tools/chart --updates --from-line 22 examples/cut/disagree.txt > chart.svg
    tools/chart --slide examples/cut/in-flight.txt > slide.svg

The input is a schedule, or what `bgpnet trace` printed: the program traces it. The arrow of an UPDATE leaves where a
router tells it, which is where it stands in the outbox first; runs down along its line to a dot where it is put into
the pipe; slants to where it is taken; and ends where it is handled. Every other arrow leaves where its item was put and
ends where it was taken. What has not come yet ends between the lines.

Thick are UPDATEs, blue those that announce, orange and broken those that withdraw; thin are OPENs (green), dials and
KEEPALIVEs (grey), shuts and NOTIFICATIONs (brown), and, violet and dotted, the markers of snapshots. A diamond is a
command; a box is the path that a router keeps from there on; seconds that pass are a line across. A violet square is
where a router records a snapshot, and the violet line through those of all routers is the cut: an UPDATE that leaves
above it and ends below is in flight. The numbers in front are those of events. Below stand how snapshots came out, and
a legend, but on a slide.

With --columns the chart goes on in a column beside the first; a column ends where no arrow is under way, if there is
such a place near. With --slide it has as many columns as make its letters 12 points high (--points) on a slide of 13.3
by 7.5 inches, and what has no room there is refused, with words that make room."""
from bgpnet.charts import LEAST_POINTS, MOST_COLUMNS, MOST_EVENTS, POINTS, Shown, drawn_chart
from bgpnet.network import Prefix, network_asked
from bgpnet.program import Words, count, tool, write_text


@tool
def main():
    words, number = Words(__doc__), count(1, MOST_EVENTS)
    words.add_argument("schedule", metavar="SCHEDULE",
                       help="an input of `bgpnet play`, or a trace; - for the standard input")
    words.add_argument("--updates", action="store_true", help="UPDATEs, commands but `start` and kept paths alone")
    words.add_argument("--prefix", metavar="PREFIX", help="UPDATEs and kept paths of this prefix alone")
    words.add_argument("--from", dest="first", type=number, metavar="N", default=1, help="the first event (1)")
    words.add_argument("--to", dest="last", type=number, metavar="N", default=MOST_EVENTS, help="the last event")
    words.add_argument("--from-line", dest="first_line", type=number, metavar="L", default=1,
                       help="the first line of SCHEDULE whose events are shown")
    words.add_argument("--to-line", dest="last_line", type=number, metavar="L", default=MOST_EVENTS,
                       help="the last one")
    words.add_argument("--columns", type=count(1, MOST_COLUMNS), metavar="N", default=1, help="in so many columns (1)")
    words.add_argument("--slide", action="store_true", help="in as many columns as a slide takes")
    words.add_argument("--points", type=count(LEAST_POINTS, POINTS), metavar="N", default=POINTS,
                       help=f"how high letters are on a slide, {LEAST_POINTS} to {POINTS} ({POINTS})")
    asked = words.parse_args()
    prefix = Prefix.named(asked.prefix) if asked.prefix else None
    program, text, network, *_ = network_asked(asked, asked.schedule)
    shown = Shown(asked.first, asked.last, asked.first_line, asked.last_line, asked.updates, prefix, asked.columns,
                  asked.slide, asked.points)
    write_text(drawn_chart(program, network, text, asked.schedule, shown))
    return 0
