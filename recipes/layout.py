r"""Payloads as lines of ASCII, to be compared: payloads that differ never make the same lines.

What isn't printable ASCII is escaped: \n, \r, \t, or \u{43e}. A space at a line's end, where it can't be seen, is \s. In
a text by its own lines each backslash is doubled. In JSON it is as it came: there it is in a string, where a line feed, a
return and a tab are never characters of their own, and neither s nor u{ can follow it.
"""

import json
import re
from typing import List, NoReturn, Optional, Tuple

WIDTH = 16  # The bytes of a line of hexadecimal digits.
NAMED = {"\n": "\\n", "\r": "\\r", "\t": "\\t", "\\": "\\\\", " ": "\\s"}
SEEN = bytes(byte if 0x21 <= byte <= 0x7E else 0x2E for byte in range(256))
BLANKS = " \t\r\n"  # What JSON may have between its parts.
# Before JSON there may be blanks, or a word such as Socket.IO's 42; after it characters that can't be seen.
BEFORE, AFTER = re.compile(r'(?:[ \t\r\n]*|[^\s"\\\[\]{}]+)(?=[\[{])'), re.compile(r"[\x00-\x20\x7f]*")
# A bracket or comma of JSON, with what comes before it.
PARTS = re.compile(r'[^"{}\[\],]*(?:"[^"\\]*(?:\\.[^"\\]*)*"[^"{}\[\],]*)*[{}\[\],]')


def refuse(name: str) -> NoReturn:
    """Python reads NaN and Infinity, which JSON doesn't have."""
    raise ValueError(name)


# Numbers stay texts, of any length: it is only asked whether a text is JSON.
DECODER = json.JSONDecoder(parse_int=str, parse_float=str, parse_constant=refuse)


def json_in(text: str) -> Optional[Tuple[int, int]]:
    """Where the object or array of JSON that a text consists of begins and ends; None of another text."""
    before = BEFORE.match(text)
    if not before:
        return None
    try:
        _, end = DECODER.raw_decode(text, before.end())
    except (ValueError, RecursionError):
        return None
    return (before.end(), end) if AFTER.fullmatch(text, end) else None


def are_spaced(parts: List[str]) -> bool:
    """Whether JSON has commas, and a space after each."""
    return {after[0] for part, after in zip(parts, parts[1:]) if part[-1] == ","} == {" "}


def ended(row: str) -> str:
    """A row that ends here: the blanks at its end are escaped."""
    rest = row.rstrip(BLANKS)
    return row if rest == row else rest + "".join(NAMED[blank] for blank in row[len(rest) :])


def indented(parts: List[str], is_spaced: bool) -> List[str]:
    """JSON in rows, which end after an opening bracket or a comma, and before a closing bracket. Blanks stay, and are
    escaped at the end of a row; but the space after each comma is left out, if `is_spaced`."""
    pieces, line, begins_row, known = [], "\n", False, 0
    for part in parts:
        mark = part[-1]
        if begins_row:
            rest = part.lstrip(BLANKS)
            if rest in ("]", "}"):  # Nothing is between the brackets.
                pieces.append(part)
                line, begins_row = line[:-2], False
                continue
            blanks = part[known : len(part) - len(rest)]
            pieces.append(ended(blanks) + line if blanks else line)
            part = rest
        begins_row, known = True, 0
        if mark == ",":
            pieces.append(part)
            known = 1 if is_spaced else 0
        elif mark in ("[", "{"):
            pieces.append(part)
            line += "  "
        else:
            line = line[:-2]
            pieces += [ended(part[:-1]), line, mark]
            begins_row = False
    return "".join(pieces).split("\n")


def digits(data: bytes) -> List[str]:
    """Bytes in hexadecimal, each row with its offset before it and its printable characters after it."""
    pieces = [(at, data[at : at + WIDTH]) for at in range(0, len(data), WIDTH)]
    return [f"{at:6}  {piece.hex(' '):{3 * WIDTH - 1}}  {piece.translate(SEEN).decode()}" for at, piece in pieces]


class Layout:
    """How texts are laid out: in ASCII alone, or with the letters of all scripts as they are."""

    def __init__(self, keeps_letters: bool = False):
        self.keeps_letters = keeps_letters

    def escaped(self, text: str, more: str = "") -> str:
        """A text whose characters are escaped that aren't printable ASCII, or are among `more`."""
        if text.isascii() and text.isprintable() and not (more and set(text) & set(more)):
            return text
        return "".join(each if self.stays(each) and each not in more else escape(each) for each in text)

    def stays(self, character: str) -> bool:
        """Whether a character is written as it is."""
        return " " <= character <= "~" or (self.keeps_letters and character > "~" and character.isprintable())

    def text(self, text: str) -> Tuple[str, List[str]]:
        """What a text is, and its rows: those of JSON indented, or its own lines."""
        start, end = json_in(text) or (0, 0)
        if not end or "\n" in text[start:end]:
            return "text", self.lines(text)
        parts = PARTS.findall(text, start, end)
        is_spaced = ", " in text and are_spaced(parts)
        rows = indented(parts, is_spaced)
        if not (text.isascii() and text.isprintable()):
            rows = [self.escaped(row) for row in rows]
        rows[0] = self.escaped(text[:start], " ") + rows[0]
        rows[-1] += self.escaped(text[end:], " ")
        return "text json, spaced" if is_spaced else "text json", rows

    def lines(self, text: str) -> List[str]:
        """A text by its own lines, of which all but the last end in an escaped line feed."""
        *lines, last = text.split("\n")
        rows = [self.escaped(line, "\\") + NAMED["\n"] for line in lines]
        return [*rows, ended(self.escaped(last, "\\"))] if last else rows


def escape(character: str) -> str:
    """One character, escaped."""
    return NAMED.get(character) or f"\\u{{{ord(character):x}}}"
