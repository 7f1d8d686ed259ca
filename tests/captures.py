"""Captures with their reports, and captures with a malformed line (tests/program and tests/failing-calls read them)."""
# A name, which begins with the outcome, a capture, and what `closing` says of it, in the order of its lines.
REPORTS = (
    ("clean: both close by 1000, and both directions end", "C 88820000000003e8\nS 880203e8\nS.\nC.\n",
     "closed 1000, closed 1000, client, yes, 1000, 1000, clean"),
    ("complete: both close by 1000, and neither direction ends", "C 88820000000003e8\nS 880203e8",
     "closed 1000, closed 1000, client, yes, 1000, 1000, complete"),
    ("complete: both close by 1000, and one direction ends", "C 88820000000003e8\nS 880203e8\nC.",
     "closed 1000, closed 1000, client, yes, 1000, 1000, complete"),
    ("complete: both close, by two codes", "C 88820000000003e8\nS 880203e9\n",
     "closed 1000, closed 1001, client, no, 1001, 1000, complete"),
    ("complete: both close, one by a code and one without", "C 88820000000003e8\nS 8800\n",
     "closed 1000, closed -, client, no, 1005, 1000, complete"),
    ("complete: both close without a code", "S 8800\nC 888000000000\n",
     "closed -, closed -, server, yes, 1005, 1005, complete"),
    ("half: the server closes by 1014, and no more comes", "S 880203f6\n",
     "running, closed 1014, server, -, 1014, -, half"),
    ("abnormal: the server's direction ends, and nothing was sent", "S.\n",
     "running, ended, -, -, 1006, -, abnormal"),
    ("abnormal: the server's direction ends inside a frame", "S 8105\nS.\n",
     "running, cut, -, -, 1006, -, abnormal"),
    ("abnormal: the server's direction ends inside a message", "S 010141\nS.\n",
     "running, cut, -, -, 1006, -, abnormal"),
    ("half: the server closes without a code, and no more comes", "S 8800\n",
     "running, closed -, server, -, 1005, -, half"),
    ("abnormal: the server closes, and the client's direction ends", "S 880203e8\nC.\n",
     "ended, closed 1000, server, -, 1000, 1006, abnormal"),
    ("failed: the server sends a reserved bit", "S c1\n",
     "running, refused 0 reserved-bits 1002, -, -, 1006, -, failed"),
    ("failed: the server sends a reserved bit, and more after it", "S c1\nS 880203e8\nS.\n",
     "running, refused 0 reserved-bits 1002, -, -, 1006, -, failed"),
    ("failed: a side closes, and the other is refused", "C 88820000000003e8\nS 8101ff\nS.\nC.\n",
     "closed 1000, refused 2 text-bad 1007, client, -, 1006, 1000, failed"),
    ("open: nothing", "",
     "running, running, -, -, -, -, open"),
    ("open: messages, and comments, empty lines and carriage returns between them",
     "# a session\r\n\r\nC 818500000000\r\n\nC 48656c6c6f\n#\nS 810141\n\r\n",
     "running, running, -, -, -, -, open"),
    ("complete: a Close that begins first and ends second", "C 8882\nC 00000000\nS 8802\nS 03e8\nC 03\nC e8\n",
     "closed 1000, closed 1000, server, yes, 1000, 1000, complete"),
    ("complete: a Close after a message in its line, and bytes after the Close in a later one",
     "S 810141880203e8\nC 88820000000003e8\nS 8800\n",
     "closed 1000, closed 1000, server, yes, 1000, 1000, complete"),
    ("clean: end marks in one order, and the Closes in the other", "S 880203e8\nC 88820000000003e8\nC.\nS.\n",
     "closed 1000, closed 1000, server, yes, 1000, 1000, clean"),
    ("complete: digits of both cases", "C 88820000000003EB\nS 880203eB\n",
     "closed 1003, closed 1003, client, yes, 1003, 1003, complete"),
)

# A capture, the number of its first malformed line, and its fault.
FAULTS = (
    ("C 8", 1, "bad-hex"),
    ("C ", 1, "bad-hex"),
    ("S \n", 1, "bad-hex"),
    ("S \r\n", 1, "bad-hex"),
    ("C 8g", 1, "bad-hex"),
    ("C g8", 1, "bad-hex"),
    ("C 881", 1, "bad-hex"),
    ("C  81", 1, "bad-hex"),
    ("C 81 ", 1, "bad-hex"),
    ("C 81\r\r\n", 1, "bad-hex"),
    ("C 81\rC 81", 1, "bad-hex"),
    ("C /0:0@0G0`0g0", 1, "bad-hex"),
    ("X", 1, "bad-form"),
    ("C", 1, "bad-form"),
    ("S\n", 1, "bad-form"),
    ("C. ", 1, "bad-form"),
    ("S.S.", 1, "bad-form"),
    (" C.", 1, "bad-form"),
    ("c 81", 1, "bad-form"),
    ("C81", 1, "bad-form"),
    ("\rC.", 1, "bad-form"),
    ("\r\r\n", 1, "bad-form"),
    ("C.\nC 81", 2, "after-end"),
    ("C.\n#\nC.\n", 3, "after-end"),
    ("C.\nC zz", 2, "bad-hex"),
)


def report(words):
    """The lines of a report with these words."""
    names = ("client", "server", "first", "echo", "client-sees", "server-sees", "outcome")
    return "".join(f"{name} {word}\n" for name, word in zip(names, words.split(", ")))


def status_of(words):
    """0 where both endpoints sent a Close and neither stream is refused."""
    return 0 if words.count("closed ") == 2 else 1
