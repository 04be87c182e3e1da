"""The tokens of a file in the language of BIRD, those of the files that it includes among them."""
import glob
import os
import re
from collections import namedtuple

from bgpnet.configs.bird.keywords import KEYWORDS
from bgpnet.configs.bird.values import MOST, Address, Address6, Distinguisher
from bgpnet.configs.places import Place, refusal
from bgpnet.configs.sessions import dotted
from bgpnet.configs.syntax import address_of

# A token: `word` is a keyword, `name` any other; else it is a number, an address, a text or a sign.
Token = namedtuple("Token", "kind value place")

# A file that includes others goes so deep; and how many digits a number of 32 bits has at most.
DEEPEST, MOST_DIGITS = 8, 10

INCLUDE = re.compile(r'[ \t]*include[ \t]*"([^"\n\0]*)"[ \t]*;')
FORMS = re.compile(r"""
    (?P<blank>[ \t]+|\#[^\n]*)
  | (?P<comment>/\*.*?\*/)
  | (?P<open>/\*)
  | (?P<line>\n)
  | (?P<else>else:)
  | (?P<address>\d+\.\d+\.\d+\.\d+)
  | (?P<address6>(?:[0-9a-fA-F]*::|(?:[0-9a-fA-F]*:){3,})(?:[0-9a-fA-F]+(?::[0-9a-fA-F]+)*)?)
  | (?P<rd>(?:0x[0-9a-fA-F]+|\d+):\d+)
  | (?P<hex>0x[0-9a-fA-F]+)
  | (?P<number>\d+)
  | (?P<name>[A-Za-z_][A-Za-z_0-9]*|'[A-Za-z_0-9.:-]*')
  | (?P<text>"[^"\n]*")
  | (?P<sign>!~|!=|<=|>=|&&|\|\||\[=|=\]|\.\.|[={}:;,.()+*/%<>~\[\]?!|-])
""", re.VERBOSE | re.DOTALL)


class Lexer:
    """Reads the tokens of a text, by the file's name. `read` gives the text of a file that is included; `included` are
    the paths of these."""

    def __init__(self, read):
        self.read, self.found, self.files, self.included = read, [], [], set()

    def take(self, text, name, place=None):
        """Takes a text behind what was taken before."""
        if len(self.files) > DEEPEST:
            raise refusal(place, f"'include': files include one another more than {DEEPEST} deep")
        self.files.append(name)
        line, at, is_first = 1, 0, True
        while at < len(text):
            place = Place(name, line)
            include = INCLUDE.match(text, at) if is_first else None
            if include:
                self.include(include.group(1), place)
                at = include.end()
                is_first = False
                continue
            form = FORMS.match(text, at)
            if form and form.lastgroup == "comment" and "/*" in form.group()[2:]:
                raise refusal(place, "a comment within a comment: BIRD does not take it")
            if form is None or form.lastgroup == "open":
                what = "a comment that does not end" if form else f"an octet {text[at]!r} that begins no word"
                raise refusal(place, f"{what}: BIRD does not take it")
            if form.lastgroup not in ("blank", "comment", "line"):
                self.found.append(self.token(form.lastgroup, form.group(), place))
            is_first = form.lastgroup == "line"
            line += form.group().count("\n")
            at = form.end()
        self.files.pop()

    def include(self, pattern, place):
        """Takes the files of a pattern, in the order of their names; folders among them are passed over."""
        whole = os.path.join(os.path.dirname(place.file), pattern)
        folder = os.path.dirname(whole) or "."
        names = [whole]
        if glob.has_magic(pattern):
            if not glob.has_magic(folder) and not os.path.isdir(folder):
                raise refusal(place, f"'include': {folder}: No such file or directory")
            names = sorted(name for name in glob.glob(whole) if not os.path.isdir(name))
        for name in names:
            try:
                text = self.read(name)
            except OSError as why:
                raise refusal(place, f"'include': {name}: {why.strerror}") from None
            self.included.add(os.path.realpath(name))
            self.take(text, name, place)

    @staticmethod
    def token(form, text, place):
        if form in ("number", "hex"):
            number = value_of(text[2:], 16) if form == "hex" else value_of(text)
            if number > MOST:
                raise refusal(place, f"{text}: a number has at most 32 bits")
            return Token("number", number, place)
        if form == "address":
            parts = list(map(value_of, text.split(".")))
            if max(parts) > 255:
                raise refusal(place, f"'{text}' is no address")
            return Token("address", Address(address_of(".".join(map(str, parts)))), place)
        if form == "name":
            bare = text.strip("'")
            if bare in KEYWORDS and bare is text:
                return Token("word", text, place)
            return Token("name", bare, place)
        if form == "text":
            return Token("text", text[1:-1], place)
        if form == "else":
            return Token("sign", text, place)
        return Token(form, {"address6": Address6, "rd": Distinguisher}.get(form, str)(text), place)


def value_of(digits, base=10):
    """The value of digits, however many zeros stand in front; of more than any number here has, a greater one."""
    digits = digits.lstrip("0")
    return int(digits or "0", base) if len(digits) <= MOST_DIGITS else MOST + 1


def written(token):
    """A token as it stands in the file."""
    return f'"{token.value}"' if token.kind == "text" else dotted(token.value) if token.kind == "address" else \
        str(token.value)
