"""What the tools share beside the texts: the words of a command line, refusals, and the program that they ask."""
from __future__ import annotations

import argparse
import bz2
import functools
import gzip
import io
import os
import pathlib
import re
import shutil
import subprocess
import sys
import zlib
from typing import Callable, Dict, Iterable, List, NoReturn, Sequence, Tuple, TypeVar

Key = TypeVar("Key")
Value = TypeVar("Value")
# The top of the repository, where the package stands in one.
TOP = pathlib.Path(__file__).resolve().parents[2]
BUILT = TOP / "crates/bgpnet/out/bgpnet"

# How the command of a tool begins that is installed.
PREFIX = "bgpnet-"

# How the first block of a bzip2 file begins, and the end of an empty one.
BZIP2_BLOCKS = (bytes.fromhex("314159265359"), bytes.fromhex("177245385090"))

# What the program says of a line: the code of the refusal, and its sentence.
CODED = re.compile(r"([A-Z][0-9]): (.*)", re.S)
# What the program says on the standard error: of a line that it refuses, else of the whole text or of what failed.
SAID = re.compile(r"^bgpnet: (?:line ([0-9]+): )?(.*)$", re.MULTILINE)


class Refusal(Exception):
    """Why a tool does not do what it was asked for, in one line. The status is 1."""

    @property
    def lines(self) -> list[str]:
        """The reasons, each a line."""
        return [str(self)]


class Refusals(Refusal):
    """Several reasons why a tool does not do what it was asked for."""

    def __init__(self, reasons: Iterable[Refusal]) -> None:
        super().__init__("\n".join(line for why in reasons for line in why.lines))

    @property
    def lines(self) -> list[str]:
        return str(self).split("\n")


class Refused(Refusal):
    """The program refuses a text: `line` is the number of the text's line, 0 where it is the whole text; `code` is that
    of docs/TEXTS.md, empty where the program says none; `sentence` is what it says of that line, and `hints` what it
    says besides, such as what may have been meant."""

    def __init__(self, name: str, line: int, sentence: str, hints: Sequence[str] = ()) -> None:
        super().__init__("; ".join([f"{name}:{line}: {sentence}" if line else f"{name}: {sentence}", *hints]))
        found = CODED.fullmatch(sentence)
        self.line, self.hints = line, tuple(hints)
        self.code, self.sentence = (found[1], found[2]) if found else ("", sentence)


def grouped(pairs: Iterable[Tuple[Key, Value]]) -> Dict[Key, List[Value]]:
    """The values of each key, both in the order in which they come."""
    found: Dict[Key, List[Value]] = {}
    for key, value in pairs:
        found.setdefault(key, []).append(value)
    return found


def refuse_all(reasons: Sequence[Refusal]) -> None:
    """Refuses for all reasons, if there are any."""
    if reasons:
        raise reasons[0] if len(reasons) == 1 else Refusals(reasons)


def found_program() -> str:
    """Where the program stands, if no word names another: what BGPNET names, else `bgpnet` on PATH, else where it was
    built."""
    return os.environ.get("BGPNET") or shutil.which("bgpnet") or str(BUILT)


class Words(argparse.ArgumentParser):
    """The words of a tool. Wrong ones are answered by one line and status 2. The help of a tool that is installed says
    `bgpnet-NAME` in place of `tools/NAME`."""

    def __init__(self, text: str | None, asks: bool = True) -> None:
        super().__init__(description=text, allow_abbrev=False, formatter_class=argparse.RawDescriptionHelpFormatter)
        if asks:
            self.add_argument("--program", metavar="PATH", default=found_program(), help="the program (what BGPNET "
                              "names, else bgpnet on PATH, else crates/bgpnet/out/bgpnet)")

    def format_help(self) -> str:
        text = super().format_help()
        return re.sub(r"\btools/(?=[a-z])", PREFIX, text) if self.prog.startswith(PREFIX) else text

    def error(self, message: str) -> NoReturn:
        self.exit(2, f"{self.prog}: {message}; --help says how it is used\n")


def count(least: int, most: int) -> Callable[[str], int]:
    """The reader of a word that is a number from `least` to `most`."""
    def number(word: str) -> int:
        if not (word.isascii() and word.isdigit()) or not least <= int(word) <= most:
            raise argparse.ArgumentTypeError(f"'{word}' is no number from {least} to {most}")
        return int(word)

    return number


def read_octets(name: str) -> bytes:
    """The octets of a file, of the standard input where its name is `-`; what gzip or bzip2 packed is unpacked."""
    if name == "-":
        if sys.stdin is None:
            raise Refusal("the standard input is closed")
        return unpacked(name, sys.stdin.buffer.read())
    with open(name, "rb") as file:
        return unpacked(name, file.read())


def unpacked(name: str, octets: bytes) -> bytes:
    for form, unpack, is_packed in (("gzip", gzip.decompress, octets[:3] == b"\x1f\x8b\x08"),
                                    ("bzip2", bz2.decompress, octets[:3] == b"BZh" and octets[4:10] in BZIP2_BLOCKS)):
        if is_packed:
            try:
                return unpack(octets)
            except (OSError, EOFError, ValueError, zlib.error) as why:
                raise Refusal(f"{name}: its {form} data can't be unpacked: {why}") from None
    return octets


def read_text(name: str) -> str:
    """The text of a file, a character for each octet."""
    return read_octets(name).decode("latin-1")


def write_text(text: str) -> None:
    """Writes a text, in UTF-8 wherever it goes; octets of a name that are no UTF-8 as question marks."""
    sys.stdout.buffer.write(text.encode("utf-8", "replace"))


def refused(name: str, said: str) -> Refused:
    """The refusal of a text, by what the program said of it on the standard error: the first that names a line, which
    is why, and behind it what may have been meant."""
    found = SAID.findall(said) or [("", said.strip() or "the program refuses it")]
    (line, why), *hints = found[next((at for at, (line, _) in enumerate(found) if line), 0):]
    return Refused(name, int(line or 0), why, [hint for _, hint in hints])


class Program:
    """The program `bgpnet`, which judges what the tools find."""

    def __init__(self, path: str) -> None:
        if not os.access(path, os.X_OK) or os.path.isdir(path):
            if path == str(BUILT) and not (TOP / "crates").is_dir():
                raise Refusal("no program bgpnet on PATH, and BGPNET names none")
            raise Refusal(f"no program at {path}: `rt run -- play < stdin` in crates/bgpnet makes it")
        self.path = os.path.abspath(path)

    def run(self, words: Sequence[str], text: str) -> tuple[int, list[str], str]:
        """The status, 0 or 1, or 5 of `stable` and `safe`, and what the program prints for a text on the standard
        output and error."""
        done = subprocess.run([self.path, *words], input=text.encode("latin-1"), capture_output=True)
        lines = done.stdout.decode("latin-1").splitlines()
        if done.returncode not in (0, 1, 5):
            said = [text for _, text in SAID.findall(done.stderr.decode("latin-1"))] or lines[:1] or ["nothing"]
            raise Refusal(f"bgpnet {' '.join(words)} ends with status {done.returncode}: {'; '.join(said)}")
        return done.returncode, lines, done.stderr.decode("latin-1")

    def ask(self, words: Sequence[str], text: str) -> tuple[int, list[str]]:
        """The status, 0 or 1, or 5 of `stable`, and the lines that the program prints for a text."""
        return self.run(words, text)[:2]

    def answer(self, words: Sequence[str], text: str, name: str) -> list[str]:
        """The lines that the program prints for a text that it takes; a refusal names the line of the file `name`."""
        status, lines, said = self.run(words, text)
        if status == 1:
            raise refused(name, said)
        return lines

    def trace(self, text: str, name: str) -> list[str]:
        """The lines that `bgpnet trace` prints for a text; a refusal names the line of the file `name`."""
        return self.answer(["trace"], text, name)


def ready_streams() -> None:
    """Has what can't be written come out as an escape, such as the name of a file that is no UTF-8, and what is said on
    a standard error that is closed go nowhere."""
    if sys.stderr is None:
        sys.stderr = open(os.devnull, "w")
    if sys.stdout is None:
        raise Refusal("the standard output is closed")
    if sys.stdout.errors == "strict" and isinstance(sys.stdout, io.TextIOWrapper):
        sys.stdout.reconfigure(errors="backslashreplace")


def run_tool(main: Callable[[], int | None]) -> NoReturn:
    """Runs a tool, ends with its status, and prints a refusal, or a file that can't be read, as one line."""
    why: Refusal | None = None
    try:
        ready_streams()
        status = main()
        sys.stdout.flush()
    except BrokenPipeError:
        os.dup2(os.open(os.devnull, os.O_WRONLY), sys.stdout.fileno())
        status = 0
    except KeyboardInterrupt:
        status = 130
    except Refusal as own:
        why = own
    except OSError as error:
        why = Refusal(f"{error.filename or 'standard streams'}: {error.strerror}")
    except MemoryError:
        why = Refusal("there is not enough memory for this input")
    except RecursionError:
        why = Refusal("the input is nested too deep")
    except UnicodeEncodeError as error:
        why = Refusal(f"{error.object!r} can't be written in {error.encoding}")
    if why is not None:
        print("".join(f"{os.path.basename(sys.argv[0])}: {line}\n" for line in why.lines), end="", file=sys.stderr)
    sys.exit(1 if why is not None else status or 0)


def tool(main: Callable[[], int | None]) -> Callable[[], NoReturn]:
    """Makes `main` of a tool what its entry calls: run by `run_tool`."""
    @functools.wraps(main)
    def run() -> NoReturn:
        run_tool(main)

    return run
