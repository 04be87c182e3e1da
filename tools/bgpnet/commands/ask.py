"""Asks the program, and prints what it says as JSON.

    tools/ask examples/play/wedgie-stuck.txt play
    tools/ask examples/play/wedgie-stuck.txt why 2
    tools/ask examples/disagree.txt stable --most 9

The object has the file, the words, the status, and what the program prints, by names: routes, snapshots, what a router
knows. Behind `play`, `cut` and `why` there is also how many events the schedule did, how many UPDATEs were told, and
behind which round its last line `rounds` rested (null where it did not, or there is none). A refusal has the line, the
code and what the program says of it, and the status is 1."""
import json

from bgpnet.answers import counts_json, said_of
from bgpnet.network import words_of
from bgpnet.program import SAID, Program, Words, read_text, tool

# The words that play a schedule.
PLAYED = ("play", "cut", "why")


def answer_of(program, name, words, text):
    """What is printed, and the status."""
    status, lines, said = program.run(words, text)
    found = {"file": name, "words": words, "status": status}
    refused = next((words_of(line.lstrip("# ")) for line in lines[-1:] if "refused" in line), None)
    if status == 1 and refused:
        return {**found, "refused": {"line": int(refused[1]), "code": refused[2],
                                     "said": [why for _, why in SAID.findall(said)]}}
    found.update(said_of(words, lines))
    if status == 1:
        found["said"] = [why for _, why in SAID.findall(said)]
    if words[0] in PLAYED and not status:
        found["counts"] = counts_json(program.trace(text, name))
    elif words[0] in ("trace", "record") and not status:
        found["counts"] = counts_json(lines)
    return found


@tool
def main():
    words = Words(__doc__)
    words.add_argument("file", metavar="FILE", help="an input of the program, - for the standard input")
    words.add_argument("words", metavar="WORD", nargs="+", help="the word of the program, and what stands behind it")
    asked, more = words.parse_known_args()
    asked.words += more
    found = answer_of(Program(asked.program), asked.file, asked.words, read_text(asked.file))
    print(json.dumps(found, indent=1))
    return found["status"]
