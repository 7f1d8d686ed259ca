"""Texts with characters that are escaped and with others like them, and what is written of them character by character.

A text in quotation marks is compared with quoted(), a comment with doubled(). A character is hidden if it is a control
character, a separator, or one of Unicode's Default_Ignorable_Code_Point that is no joiner and no variation selector.
"""
import functools
import random

# A hundred and two characters: those that are escaped, and others whose bytes are like theirs.
CHARACTERS = (
    "\0\n\u001f !\"#[\\]~\u007f\u0080\u0085\u009b\u009f\u00a0\u00ac\u00ad\u00ae\u00bf\u00c0\u034e\u034f\u0350\u0600"
    "\u061b\u061c\u061d\u063f\u0640\u115e\u115f\u1160\u1161\u17b3\u17b4\u17b5\u17b6\u180b\u180d\u180e\u180f\u2000\u200a"
    "\u200b\u200c\u200d\u200e\u200f\u2010\u2027\u2028\u202a\u202e\u202f\u205f\u2060\u2065\u2066\u2069\u206a\u206f\u2070"
    "\u20ac\u3042\u3163\u3164\u3165\u4e2d\ufe00\ufe0f\ufefe\ufeff\uff01\uff9f\uffa0\uffa1\uffef\ufff0\ufff8\ufff9\ufffd"
    "\U0001bc9f\U0001bca0\U0001bca3\U0001bca4\U0001d172\U0001d173\U0001d17a\U0001d17b\U0001f600\U000dffff\U000e0000"
    "\U000e0001\U000e00ff\U000e0100\U000e01ef\U000e01f0\U000e0fff\U000e1000\U0010ffff"
)
CONTROLS = ((0, 0x1F), (0x7F, 0x9F), (0x2028, 0x2029))
IGNORABLE = (
    (0xAD, 0xAD), (0x34F, 0x34F), (0x61C, 0x61C), (0x115F, 0x1160), (0x17B4, 0x17B5), (0x180B, 0x180F), (0x200B, 0x200F),
    (0x202A, 0x202E), (0x2060, 0x206F), (0x3164, 0x3164), (0xFE00, 0xFE0F), (0xFEFF, 0xFEFF), (0xFFA0, 0xFFA0),
    (0xFFF0, 0xFFF8), (0x1BCA0, 0x1BCA3), (0x1D173, 0x1D17A), (0xE0000, 0xE0FFF),
)
JOINERS = ((0x200C, 0x200D),)
SELECTORS = ((0x180B, 0x180D), (0x180F, 0x180F), (0xFE00, 0xFE0F), (0xE0100, 0xE01EF))


def is_in(code, ranges):
    return any(first <= code <= last for first, last in ranges)


def is_hidden(code):
    return is_in(code, CONTROLS) or is_in(code, IGNORABLE) and not is_in(code, (*JOINERS, *SELECTORS))


@functools.lru_cache(maxsize=None)
def escaped(character):
    """A hidden character as `\\u` and four digits, or as two surrogates."""
    code = ord(character)
    if not is_hidden(code):
        return character
    if code < 0x10000:
        return f"\\u{code:04x}"
    return f"\\u{0xd800 + (code - 0x10000) // 0x400:04x}\\u{0xdc00 + (code - 0x10000) % 0x400:04x}"


def written(text, after_a_backslash):
    """A text, character by character."""
    return "".join("\\" + it if it in after_a_backslash else escaped(it) for it in text)


def quoted(text):
    return '"' + written(text, '\\"') + '"'


def doubled(text):
    return written(text, "\\")


def whole(data):
    """The whole characters at the start of some bytes of a text."""
    return data.decode(errors="ignore")


def each_at_each_place():
    """Each character at each place, on both sides of each block."""
    return ["a" * before + it + "b" * (40 - before) for it in CHARACTERS for before in range(41)]


def random_texts(seed, number, longest, letters):
    """Texts of up to `longest` characters, of which `letters` in `102 + letters` are the letter a."""
    chance = random.Random(seed)
    among = CHARACTERS + "a" * letters
    return ["".join(chance.choices(among, k=it % (longest + 1))) for it in range(number)]
