"""The rows of tests/failing-calls: runs of the program of which each read and write fails in turn."""
from typing import NamedTuple

# After the end of the input.
END = 1 << 40


class Row(NamedTuple):
    """A run: the words after `wsn`, standard input, what is written to standard output, the status, and what is written
    to standard error, without hints.

    `pieces` has the parts of the output, each with the number of bytes of standard input after which it is due. Once
    `decided` bytes have come, no more are read. A word that is the name of a file in `files` stands for its path. With
    `by_turns` each place has one of the errors, and otherwise all.
    """

    name: str
    words: list
    given: bytes
    pieces: list
    status: int = 0
    error: str = ""
    decided: int = END
    files: dict = {}
    read_failed: str = "read failed\n"
    by_turns: bool = False

    def due(self, count):
        """What is due after this many bytes, before the end of the input."""
        return b"".join(bytes_of(text) for after, text in self.pieces if after <= count)

    def answer(self):
        """The status, and what is written to standard output and to standard error, of a run without a failure."""
        return self.status, self.due(END), self.error.encode()


def bytes_of(text):
    return text if isinstance(text, bytes) else text.encode()
