"""The rows of a JSON file: an array of objects, whose members have the columns' names. It is read by pieces, since it may be one long line, and each member has its line."""
import json
import re

from desk.columns import EPOCH, KNOWN, NAME, NAMES, NEEDED, ONCE, QUESTION, TIMES

TEXTS = {QUESTION.name, EPOCH.name, NAME.name}
PIECE = 65_536  # characters
LONGEST = 65_536  # of a text or a number
NUMBERS_AS_WRITTEN = json.JSONDecoder(parse_int=str, parse_float=str, parse_constant=str)
WHITE, SIGNS = " \t\r\n", "{}[],:"
TOKEN = re.compile(rf'[{WHITE}]*([{{}}\[\],:]|"(?:[^"\\\x00-\x1f]|\\.)*"|[^\s{{}}\[\],:"]+)')


class Unclear(Exception):
    """What is expected where reading has to end, with its line, its column if there is one, and what was found."""


class Tokens:
    """The signs, texts and numbers of a JSON file, one after another; the end is an empty one. line is that of the last one, and column the member that is being read."""

    def __init__(self, text):
        self.text, self.buffer, self.at, self.ended = text, "", 0, False
        self.line, self.column = 1, None

    def to(self, end):
        self.line += self.buffer.count("\n", self.at, end)
        self.at = end

    def unclear(self, expected, found):
        return Unclear(self.line, self.column, expected, found)

    def next(self):
        while True:
            token = TOKEN.match(self.buffer, self.at)
            # What the buffer cuts off may go on.
            if token and (token.end() < len(self.buffer) or self.ended):
                self.to(token.end())
                return token[1]
            rest = self.buffer[self.at :].lstrip(WHITE)
            self.to(len(self.buffer) - len(rest))
            if self.ended and not rest:
                return ""
            if self.ended or len(rest) > LONGEST:
                raise self.unclear(f"a text in double quotes, on one line, or a number, of at most {LONGEST:,} characters", rest)
            piece = self.text.read(PIECE)
            self.buffer, self.at, self.ended = rest + piece, 0, not piece

    def expect(self, *signs):
        token = self.next()
        if token not in signs:
            raise self.unclear(" or ".join(map(repr, signs)), token)
        return token

    def value(self, expected, kinds=""):
        """The next text, or number as it is written; and how it stands there. kinds has the signs that it may begin with, if not any."""
        token = self.next()
        try:
            if not token or token in SIGNS or token[0] not in (kinds or token[0]):
                raise ValueError
            return str(NUMBERS_AS_WRITTEN.decode(token)), token
        except ValueError:
            raise self.unclear(expected, token) from None


def json_rows(text, complain):
    """The objects of the array: their first line, and their members by name."""
    tokens = Tokens(text)
    try:
        tokens.expect("[")
        sign = tokens.expect("{", "]")
        while sign == "{":
            line = tokens.line
            cells, good = members(tokens, complain)
            if good:
                yield line, cells
            sign = tokens.expect(",", "]")
            if sign == ",":
                sign = tokens.expect("{")
        if tokens.next():
            raise Unclear(tokens.line, None, "the end of the file")
    except Unclear as unclear:
        complain(*unclear.args)


def members(tokens, complain):
    """The members of an object that has begun, each with its line; and whether they are the columns, with the right kind of value. Where a column may be left out, null says so too."""
    cells, good, sign = {}, True, ","
    while sign == ",":
        name, _ = tokens.value("a name in double quotes", '"')
        tokens.column = name
        tokens.expect(":")
        value, written = tokens.value("a number or a text")
        if name not in NAMES or name in cells:
            complain(tokens.line, name, ONCE if name in NAMES else KNOWN)
            good = False
        elif written != "null" or name in NEEDED:
            good = fits(name, written, tokens.line, complain) and good
            cells[name] = tokens.line, value
        sign = tokens.expect(",", "}")
        tokens.column = None
    return cells, good


def fits(name, written, line, complain):
    """Whether a value is a text where one belongs, and a number where one does; a time may be either."""
    is_text, is_word = written[0] == '"', written in ("true", "false", "null")
    good = not is_word and (name in TIMES or is_text == (name in TEXTS))
    if not good:
        complain(line, name, "a text in double quotes" if name in TEXTS else "a number without quotes", written)
    return good
