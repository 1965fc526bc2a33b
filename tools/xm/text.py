"""Lines of words: numbers, names, quotes, comments, and errors that say where they are."""

from __future__ import annotations

import difflib
import re
from dataclasses import dataclass
from typing import Iterable, NoReturn, Sequence

PLAIN_NAME = re.compile(r"[A-Za-z_][A-Za-z0-9_]*")
NUMBER = re.compile(r"0[xX][0-9A-Fa-f]+(_[0-9A-Fa-f]+)*|[0-9]+(_[0-9]+)*")
HEX_DIGITS = re.compile(r"[0-9A-Fa-f]+")
BARE_WORD = re.compile(r'[^ \t"#]+')
BLANKS = re.compile(r"[ \t]*")
HEX_ESCAPE = re.compile(r"x([0-9A-Fa-f]{2})")

MOST_DIGITS = 100  # nobody writes more, and a number that long fits no field

# Words that stand where a partition may stand; a partition of such a name is quoted.
RESERVED = ("tick", "line", "system_fault", "system", "events", "to")


class TextError(Exception):
    """A text that says nothing: the line and the column, counted from 1, and what is wrong."""

    def __init__(self, line: int, column: int, message: str):
        super().__init__(message)
        self.line = line
        self.column = column
        self.message = message


@dataclass(frozen=True)
class Word:
    """A word of a line: as it is written, and its bytes if it is quoted."""

    column: int
    written: str
    quoted: bytes | None = None

    @property
    def bare(self) -> str | None:
        """The word itself, unless it is quoted."""
        return self.written if self.quoted is None else None

    def shown(self) -> str:
        """The word as a message shows it."""
        return f"'{self.written}'" if self.quoted is None else self.written


def split_lines(data: bytes) -> list[str]:
    """The lines of a text; raises TextError where it is not UTF-8."""
    try:
        text = data.decode("utf-8-sig")
    except UnicodeDecodeError as error:
        before = data[:error.start].decode("utf-8-sig").split("\n")
        raise TextError(len(before), len(before[-1]) + 1, "the text is not UTF-8") from error
    return [line.removesuffix("\r") for line in text.split("\n")]


def split_words(line: int, text: str) -> list[Word]:
    """The words of a line, without its comment."""
    words: list[Word] = []
    place = BLANKS.match(text).end()
    while place < len(text) and text[place] != "#":
        if words and place == words[-1].column - 1 + len(words[-1].written):
            raise TextError(line, place + 1, "a blank is missing before or behind the quotes")
        if text[place] == '"':
            word = read_quoted(line, text, place)
        else:
            word = Word(place + 1, BARE_WORD.match(text, place).group())
        words.append(word)
        place = BLANKS.match(text, place + len(word.written)).end()
    return words


def read_quoted(line: int, text: str, start: int) -> Word:
    """The quoted word at a place; letters outside ASCII stand for their UTF-8 bytes."""
    found = bytearray()
    place = start + 1
    while place < len(text):
        if text[place] == '"':
            return Word(start + 1, text[start:place + 1], bytes(found))
        if text[place] == "\\":
            byte, length = read_escape(line, text, place)
            found.append(byte)
            place += length
        else:
            found += text[place].encode()
            place += 1
    raise TextError(line, start + 1, "the quote is not closed")


def read_escape(line: int, text: str, place: int) -> tuple[int, int]:
    """The byte of an escape, and how many letters it is written with."""
    letter = text[place + 1:place + 2]
    if letter and letter in '"\\':
        return ord(letter), 2
    if letter == "n":
        return ord("\n"), 2
    digits = HEX_ESCAPE.match(text, place + 1)
    if digits:
        return int(digits.group(1), 16), 4
    raise TextError(line, place + 1, r'a backslash is followed by ", \, n or x and two hexadecimal digits')


def quoted(data: bytes) -> str:
    """Bytes in quotes, in ASCII."""
    escapes = {ord('"'): '\\"', ord("\\"): "\\\\", ord("\n"): "\\n"}
    letters = (escapes.get(byte) or (chr(byte) if 32 <= byte < 127 else f"\\x{byte:02x}") for byte in data)
    return '"' + "".join(letters) + '"'


def named(name: bytes) -> str:
    """A name as the text writes it: bare where that can be read back, else quoted."""
    text = name.decode("latin-1")
    return text if PLAIN_NAME.fullmatch(text) and text.isascii() and text not in RESERVED else quoted(name)


def find_name(known: Sequence[bytes], wanted: str) -> int | None:
    """The number of the name that is wanted: as it is, as @ and its number, or in quotes."""
    name = wanted.encode(errors="surrogateescape")
    if name in known:
        return known.index(name)
    if wanted.startswith("@") and NUMBER.fullmatch(wanted[1:]):
        number = read_number(wanted[1:])
        return number if number < len(known) else None
    quotes = split_words(1, wanted) if wanted.startswith('"') else []
    return known.index(quotes[0].quoted) if len(quotes) == 1 and quotes[0].quoted in known else None


def listed(words: Sequence[str]) -> str:
    """Words as an enumeration: a, b or c."""
    return words[0] if len(words) == 1 else f"{', '.join(words[:-1])} or {words[-1]}"


def hint(word: str, candidates: Iterable[str]) -> str:
    """The candidate that was probably meant, as the end of a message."""
    by_lower = {candidate.lower(): candidate for candidate in candidates}
    close = difflib.get_close_matches(word.lower().removeprefix("xm_"), by_lower, 1, 0.7)
    return f"; did you mean '{by_lower[close[0]]}'?" if close else ""


class Words:
    """The words of one line, taken from the left."""

    def __init__(self, line: int, words: list[Word]):
        self.line = line
        self.words = words
        self.taken = 0

    @property
    def end_column(self) -> int:
        """The column behind the last word."""
        last = self.words[-1]
        return last.column + len(last.written)

    def fail(self, word: Word, message: str) -> NoReturn:
        """Refuses a word."""
        raise TextError(self.line, word.column, message)

    def left(self) -> int:
        """How many words are not taken yet."""
        return len(self.words) - self.taken

    def peek(self, what: str) -> Word:
        """The next word, which must be there; it is not taken."""
        if not self.left():
            raise TextError(self.line, self.end_column, f"{what} is missing")
        return self.words[self.taken]

    def take(self, what: str) -> Word:
        """Takes the next word, which must be there."""
        word = self.peek(what)
        self.taken += 1
        return word

    def accept(self, keyword: str) -> bool:
        """Takes the next word if it is this one."""
        found = self.left() > 0 and self.words[self.taken].bare == keyword
        self.taken += found
        return found

    def end(self) -> None:
        """Refuses words that are too many."""
        if self.left():
            word = self.words[self.taken]
            self.fail(word, f"{word.shown()} is too much: nothing more is expected in this line")

    def number(self, what: str, most: int) -> int:
        """The next word as a number that fits its field."""
        word = self.take(what)
        return self.as_number(word, what, most)

    def as_number(self, word: Word, what: str, most: int) -> int:
        """A word as a number that fits its field."""
        if word.bare is None or not NUMBER.fullmatch(word.bare):
            self.fail(word, f"{what} is a number, not {word.shown()}")
        return self.fitting(word, what, read_number(word.bare), most)

    def fitting(self, word: Word, what: str, number: int, most: int) -> int:
        """The number itself, if its field has room for it."""
        if number > most:
            self.fail(word, f"{word.written} is too large for {what}: {most:,} is the most")
        return number

    def choice(self, what: str, choices: Sequence[str]) -> int:
        """Which of the choices the next word is."""
        word = self.take(what)
        if word.bare not in choices:
            self.fail(word, f"{what} is {listed(choices)}, not {word.shown()}")
        return choices.index(word.bare)

    def keyword(self, keyword: str) -> None:
        """Takes a word that must be this one."""
        word = self.take(f"the word '{keyword}'")
        if word.bare != keyword:
            self.fail(word, f"here stands the word '{keyword}', not {word.shown()}")

    def new_name(self, what: str, longest: int) -> bytes:
        """The next word as a name that is given."""
        word = self.take(what)
        name = self.as_name(word)
        if not 1 <= len(name) <= longest:
            self.fail(word, f"a name has 1 to {longest} bytes, this one has {len(name)}")
        return name

    def as_name(self, word: Word) -> bytes:
        """A word as a name: quoted, or plain letters, digits and underscores."""
        if word.quoted is not None:
            return word.quoted
        if not PLAIN_NAME.fullmatch(word.written):
            self.fail(word, f"'{word.written}' is no plain name: write it in quotes")
        return word.written.encode()

    def hex_bytes(self) -> bytes:
        """All words that are left, as bytes in hexadecimal digits."""
        found = bytearray()
        while self.left():
            word = self.take("a byte")
            if word.bare is None or not HEX_DIGITS.fullmatch(word.bare) or len(word.bare) % 2:
                self.fail(word, f"bytes are pairs of hexadecimal digits, not {word.shown()}")
            found += bytes.fromhex(word.bare)
        return bytes(found)


def read_number(written: str) -> int:
    """The value of a decimal or hexadecimal number."""
    if len(written) > MOST_DIGITS:  # Python refuses to read very long ones
        return 1 << 64
    return int(written, 16) if written[:2] in ("0x", "0X") else int(written)
