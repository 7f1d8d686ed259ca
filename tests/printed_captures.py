"""Tables of captures and what `wsn show` prints of them (printed.py makes tests of them).

A row: the capture, the lines of its entries, and the report. A row with a view begins with the most bytes of a payload
that are shown.
"""
# Reports that several rows have.
OPEN = "client running\nserver running\nfirst -\necho -\nclient-sees -\nserver-sees -\noutcome open\n"
CLOSED_BY_SERVER = (
    "client running\nserver closed -\nfirst server\necho -\nclient-sees 1005\nserver-sees -\noutcome half\n"
)
CLOSED_1000 = (
    "client running\nserver closed 1000\nfirst server\necho -\nclient-sees 1000\nserver-sees -\n"
    "outcome half\n"
)
REFUSED_AT_3 = (
    "client running\nserver refused 3 reserved-bits 1002\nfirst -\necho -\nclient-sees 1006\nserver-sees -\n"
    "outcome failed\n"
)
BAD_AT_6 = (
    "client running\nserver refused 6 text-bad 1007\nfirst -\necho -\nclient-sees 1006\nserver-sees -\n"
    "outcome failed\n"
)
BAD_AT_8 = (
    "client running\nserver refused 8 text-bad 1007\nfirst -\necho -\nclient-sees 1006\nserver-sees -\n"
    "outcome failed\n"
)
BAD_AT_9 = (
    "client running\nserver refused 9 text-bad 1007\nfirst -\necho -\nclient-sees 1006\nserver-sees -\n"
    "outcome failed\n"
)
CLIENT_BAD_AT_19 = (
    "client refused 19 text-bad 1007\nserver running\nfirst -\necho -\nclient-sees -\nserver-sees 1006\n"
    "outcome failed\n"
)

EVENTS = (
    ("S 810548656c6c6f\n", 'S - 0 text 5 1 "Hello"\n', OPEN),
    ("S 8105\n# a\nS 48656c6c\n# b\nS 6f\n# c\n", '# a\n# b\nS - 0 text 5 1 "Hello"\n# c\n', OPEN),
    ("S 8900810148820300ff108a00\n",
     'S - 0 ping 0 1 ""\nS - 2 text 1 1 "H"\nS - 5 binary 3 1 00ff10\nS - 10 pong 0 1 ""\n', OPEN),
    ("C 8181\nS 81\nC 0000000041\nS 0142\n", 'C - 0 text 1 1 "A"\nS - 0 text 1 1 "B"\n', OPEN),
    ("S 010348656c\nS 8900\n# inside\nS 80026c6f\n", 'S - 5 ping 0 1 ""\n# inside\nS - 0 text 5 2 "Hello"\n', OPEN),
    ("C 818537fa213d7f9f4d5158\r\n# x\r\n", 'C - 0 text 5 1 "Hello"\n# x\n', OPEN),
    ("S 8200\nS 8100\n\nS 810148", 'S - 0 binary 0 1 -\nS - 2 text 0 1 ""\nS - 4 text 1 1 "H"\n', OPEN),
    ("S 8800\n", "S - 0 close 0 1 -\n", CLOSED_BY_SERVER),
    ("S 88050BB9627965\n", 'S - 0 close 5 1 3001 "bye"\n',
     "client running\nserver closed 3001\nfirst server\necho -\nclient-sees 3001\nserver-sees -\noutcome half\n"),
)

FRAMES = (
    ("S 0103\n# a\nS 48656c89\n# b\nS 0080026c6f\n",
     "S - 0 more text - 3\n# a\n# b\nS - 5 fin ping - 0\nS - 7 fin cont - 2\n", OPEN),
    ("C 8185\nC 37fa213d\n# key\nC 7f9f4d5158\n", "C - 0 fin text 37fa213d 5\n# key\n", OPEN),
    ("S 810548\n", 'S - 0 fin text - 5\nS - 0 unfinished text 1 1 lacks 4 "H"\n', OPEN),
    ("S 0101488800\n", "S - 0 more text - 1\nS - 3 fin close - 0\n", CLOSED_BY_SERVER),
    ("S 010148c1\n", "S - 0 more text - 1\nS - 3 refused 3 reserved-bits 1002 c1\n", REFUSED_AT_3),
    ("S 810561626364ff\n",
     'S - 0 fin text - 5\nS - 0 refused 6 text-bad 1007 61626364ff\nS - 6 bad-character 4 ff "abcd\\xff"\n',
     BAD_AT_6),
    ("S 010361e282\nS 8900800120\n",
     "S - 0 more text - 3\nS - 5 fin ping - 0\nS - 7 fin cont - 1\nS - 7 refused 9 text-bad 1007 20\n"
     'S - 3 bad-character 1 e28220 "a\\xe2\\x82\\x20"\n', BAD_AT_9),
)

LEFT_OVER = (
    ("S 81\n", "S - 0 unfinished head 0 0 lacks - -\n", OPEN),
    ("S 810548\n", 'S - 0 unfinished text 1 1 lacks 4 "H"\n', OPEN),
    ("S 010148\n", 'S - 0 unfinished text 1 1 lacks 0 "H"\n', OPEN),
    ("S 01014880\n", 'S - 0 unfinished text 1 1 lacks - "H"\n', OPEN),
    ("S 01014889\n", 'S - 0 unfinished text 1 1 lacks - "H"\n', OPEN),
    ("S 010148890241\n", 'S - 0 unfinished text 1 1 lacks 0 "H"\nS - 3 unfinished ping 1 1 lacks 1 41\n', OPEN),
    ("S 8103e282\n", 'S - 0 unfinished text 2 1 lacks 1 "" ..\n', OPEN),
    ("S 0101488800\n", 'S - 0 unfinished text 1 1 lacks 0 "H"\nS - 3 close 0 1 -\n', CLOSED_BY_SERVER),
    ("S 8800aabb\n", "S - 0 close 0 1 -\nS - 2 tail 2 aabb\n", CLOSED_BY_SERVER),
    ("S 81\nC 82\n", "C - 0 unfinished head 0 0 lacks - -\nS - 0 unfinished head 0 0 lacks - -\n", OPEN),
)

ENDED_BY = (
    ("S 81\n# reset by the server\r\nS.\nC.\n",
     "# reset by the server\nS - 0 unfinished head 0 0 lacks - -\nS - 1 end\nC - 0 end\n",
     "ended-by server reset\nclient ended\nserver cut\nfirst -\necho -\nclient-sees 1006\nserver-sees 1006\n"
     "outcome abnormal\n"),
    ("S 81\nC.\n# reset by the server\nS.\n",
     "C - 0 end\n# reset by the server\nS - 0 unfinished head 0 0 lacks - -\nS - 1 end\n",
     "ended-by client\nclient ended\nserver cut\nfirst -\necho -\nclient-sees 1006\nserver-sees 1006\n"
     "outcome abnormal\n"),
    ("# reset by the server.\n#reset by the server\nS.\n",
     "# reset by the server.\n#reset by the server\nS - 0 end\n",
     "ended-by server\nclient running\nserver ended\nfirst -\necho -\nclient-sees 1006\nserver-sees -\n"
     "outcome abnormal\n"),
    ("C 8880377f0b2d\n# reset by the client\nC.\nS.\n",
     "C - 0 close 0 1 -\n# reset by the client\nC - 6 end\nS - 0 end\n",
     "ended-by client reset\nclient closed -\nserver ended\nfirst client\necho -\nclient-sees 1006\n"
     "server-sees 1005\noutcome abnormal\n"),
)

COMMENTS = (
    ("# 0.001\nS 810148\n# 1.5\nS 8900\n# x\n# 12.123456789\nS 8a00\n",
     'S 0.001 0 text 1 1 "H"\nS 1.5 3 ping 0 1 ""\n# x\nS 12.123456789 5 pong 0 1 ""\n', OPEN),
    ("# 01.5\n# 1\n# 1.\n# .5\n# 1.0000000001\n#1.5\n# 1.5 \n#  1.5\nS 8900\n",
     '# 01.5\n# 1\n# 1.\n# .5\n# 1.0000000001\n#1.5\n# 1.5 \n#  1.5\nS - 0 ping 0 1 ""\n', OPEN),
    ("# 0.0\nS 8900\n", 'S 0.0 0 ping 0 1 ""\n', OPEN),
    (b"# \xffA\x1b\\\n# \\xffA\n", "# \\xffA\\x1b\\\\\n# \\\\xffA\n", OPEN),
    ('# "a\\b" é\x1b\u202e\n', '# "a\\\\b" é\\u001b\\u202e\n', OPEN),
    ("#\n\n#", "#\n#\n", OPEN),
    ("# 1.5\nS 81\nS.\nC.\n", "S 1.5 0 unfinished head 0 0 lacks - -\nS 1.5 1 end\nC 1.5 0 end\n",
     "ended-by server\nclient ended\nserver cut\nfirst -\necho -\nclient-sees 1006\nserver-sees 1006\n"
     "outcome abnormal\n"),
)

TIMES_AT_THE_END = (
    ("# 0.5\nS 8105616263\n# 1.5\nC 8180377f0b2d\n# 2.5\n",
     'C 1.5 0 text 0 1 ""\nS 0.5 0 unfinished text 3 1 lacks 2 "abc"\n', OPEN),
    ("# 0.5\nC 81\n# 1.5\nS 81\n# 2.5\nS 05\n# 3.5\n",
     'C 0.5 0 unfinished head 0 0 lacks - -\nS 2.5 0 unfinished text 0 1 lacks 5 ""\n', OPEN),
    ("S 81\n# 1.5\nC 8180377f0b2d\n", 'C 1.5 0 text 0 1 ""\nS - 0 unfinished head 0 0 lacks - -\n', OPEN),
    ("# 0.5\nS 81\n# 1.5\nS.\nC 81\n# 2.5\n",
     "S 1.5 0 unfinished head 0 0 lacks - -\nS 1.5 1 end\nC 1.5 0 unfinished head 0 0 lacks - -\n",
     "ended-by server\nclient running\nserver cut\nfirst -\necho -\nclient-sees 1006\nserver-sees -\n"
     "outcome abnormal\n"),
    ("# 0.5\nS 880003\n# 1.5\nC c1ff\n",
     "S 0.5 0 close 0 1 -\nC 1.5 0 refused 0 reserved-bits 1002 c1\nC 1.5 1 unread 1 ff\nS 0.5 2 tail 1 03\n",
     "client refused 0 reserved-bits 1002\nserver closed -\nfirst server\necho -\nclient-sees 1005\n"
     "server-sees 1006\noutcome failed\n"),
)

# With views.
REFUSALS = (
    (48, "S 010148c1\n", 'S - 0 unfinished text 1 1 lacks 0 "H"\nS - 3 refused 3 reserved-bits 1002 c1\n',
     REFUSED_AT_3),
    (48, "S 810148c1\nC 8180000000008900\nS 0203\nS 04\n",
     'S - 0 text 1 1 "H"\nS - 3 refused 3 reserved-bits 1002 c1\nC - 0 text 0 1 ""\n'
     "C - 6 refused 7 mask-missing 1002 8900\nS - 4 unread 3 020304\n",
     "client refused 7 mask-missing 1002\nserver refused 3 reserved-bits 1002\nfirst -\necho -\n"
     "client-sees 1006\nserver-sees 1006\noutcome failed\n"),
    (4, "S 810561626364ff\n", 'S - 0 refused 6 text-bad 1007 ..64ff\nS - 6 bad-character 4 ff .."d\\xff"\n',
     BAD_AT_6),
    (10, "S 810561626364ff\n", 'S - 0 refused 6 text-bad 1007 61626364ff\nS - 6 bad-character 4 ff "abcd\\xff"\n',
     BAD_AT_6),
    (1, "S 810561626364ff\n", 'S - 0 refused 6 text-bad 1007 ..\nS - 6 bad-character 4 ff .."\\xff"\n', BAD_AT_6),
    (0, "S 810561626364ff00\n", "S - 0 refused 6 text-bad 1007 -\nS - 6 bad-character 4 - -\nS - 7 unread 1 -\n",
     BAD_AT_6),
)

# With views. In order: {"name":"René Dupont"} in Latin-1, under a key of zeros and under another; a character in two
# fragments with a ping between, in lines with times; views that cut the text before a bad character; views that cut the
# character, which is shown whole, or not at all at 0.
BAD_CHARACTERS = (
    (48, "C 8196000000007b226e616d65223a2252656ee9204475706f6e74227d\n",
     "C - 0 refused 19 text-bad 1007 7b226e616d65223a2252656ee920\n"
     'C - 18 bad-character 12 e920 "{\\"name\\":\\"Ren\\xe9\\x20"\nC - 20 unread 8 4475706f6e74227d\n',
     CLIENT_BAD_AT_19),
    (14, "C 819637fa213d4cd84f5c5a9f030715a84453deda\n",
     'C - 0 refused 19 text-bad 1007 ..3a2252656ee920\nC - 18 bad-character 12 e920 ..":\\"Ren\\xe9\\x20"\n',
     CLIENT_BAD_AT_19),
    (48, "# 0.5\nS 010361e282\n# 1.5\nS 8900\n# 2.5\nS 800120\nS ff\n",
     'S 1.5 5 ping 0 1 ""\nS 2.5 0 unfinished text 3 1 lacks 0 "a" ..\nS 2.5 7 refused 9 text-bad 1007 20\n'
     'S 2.5 3 bad-character 1 e28220 "a\\xe2\\x82\\x20"\nS 2.5 10 unread 1 ff\n', BAD_AT_9),
    (10, "S 810861c3a9e282acff00\n",
     'S - 0 refused 8 text-bad 1007 ..a9e282acff\nS - 8 bad-character 6 ff .."€\\xff"\nS - 9 unread 1 00\n',
     BAD_AT_8),
    (12, "S 810861c3a9e282acff00\n",
     'S - 0 refused 8 text-bad 1007 ..c3a9e282acff\nS - 8 bad-character 6 ff .."é€\\xff"\nS - 9 unread 1 00\n',
     BAD_AT_8),
    (14, "S 810861c3a9e282acff00\n",
     'S - 0 refused 8 text-bad 1007 61c3a9e282acff\nS - 8 bad-character 6 ff "aé€\\xff"\nS - 9 unread 1 00\n',
     BAD_AT_8),
    (4, "S 810561f09f9820\n",
     'S - 0 refused 6 text-bad 1007 ..9820\nS - 3 bad-character 1 f09f9820 .."\\xf0\\x9f\\x98\\x20"\n', BAD_AT_6),
    (0, "S 810561f09f9820\n", "S - 0 refused 6 text-bad 1007 -\nS - 3 bad-character 1 - -\n", BAD_AT_6),
    (2, "S 8105f09f982000\n",
     'S - 0 refused 5 text-bad 1007 ..20\nS - 2 bad-character 0 f09f9820 "\\xf0\\x9f\\x98\\x20"\n'
     "S - 6 unread 1 00\n",
     "client running\nserver refused 5 text-bad 1007\nfirst -\necho -\nclient-sees 1006\nserver-sees -\n"
     "outcome failed\n"),
)

# With views: a control's payload in ASCII is quoted, a Close is shown whole or not at all.
CONTROLS_AND_TAILS = (
    (48, "S 8902207e\n", 'S - 0 ping 2 1 " ~"\n', OPEN),
    (48, "S 89017f8a011f8901218a00\n",
     'S - 0 ping 1 1 7f\nS - 3 pong 1 1 1f\nS - 6 ping 1 1 "!"\nS - 9 pong 0 1 ""\n', OPEN),
    (1, "S 8902612289026122\n", 'S - 0 ping 2 1 "a" ..\nS - 4 ping 2 1 "a" ..\n', OPEN),
    (2,
     "S 887d03e8" + "61" * 123 + "\n",
     'S - 0 close 125 1 1000 "' + "a" * 123 + '"\n',
     CLOSED_1000),
    (0, "S 880203e8\n", "S - 0 close 2 1 -\n", CLOSED_1000),
    (2, "S 8800aa\nS bb\n", "S - 0 close 0 1 -\nS - 2 tail 2 aa ..\n", CLOSED_BY_SERVER),
    (2, "S 81046122625c\n", 'S - 0 text 4 1 "a\\"" ..\n', OPEN),
)

# A text's bytes, and what is between the quotation marks: characters that are escaped, and their neighbours.
HIDDEN = (
    ("00", "\\u0000"), ("1f", "\\u001f"), ("20", " "), ("7e", "~"), ("7f", "\\u007f"), ("c29b", "\\u009b"),
    ("c29f", "\\u009f"), ("d89b", "؛"), ("d89c", "\\u061c"), ("e2808e", "\\u200e"), ("e2808f", "\\u200f"),
    ("e280a7", "‧"), ("e280a8", "\\u2028"), ("e280ae", "\\u202e"), ("e280af", "\u202f"), ("e281a6", "\\u2066"),
    ("e281a9", "\\u2069"), ("efbbbf", "\\ufeff"), ("c2ad", "\\u00ad"), ("cd8f", "\\u034f"), ("e1859f", "\\u115f"),
    ("e185a0", "\\u1160"), ("e19eb4", "\\u17b4"), ("e19eb5", "\\u17b5"), ("e1a08e", "\\u180e"),
    ("e2808b", "\\u200b"), ("e281a0", "\\u2060"), ("e281a5", "\\u2065"), ("e281af", "\\u206f"),
    ("e385a4", "\\u3164"), ("efbea0", "\\uffa0"), ("efbfb0", "\\ufff0"), ("efbfb8", "\\ufff8"),
    ("f09bb2a0", "\\ud82f\\udca0"), ("f09bb2a3", "\\ud82f\\udca3"), ("f09d85b3", "\\ud834\\udd73"),
    ("f09d85ba", "\\ud834\\udd7a"), ("f3a08080", "\\udb40\\udc00"), ("f3a083bf", "\\udb40\\udcff"),
    ("f3a087b0", "\\udb40\\uddf0"), ("f3a0bfbf", "\\udb43\\udfff"), ("e1a08b", "\u180b"), ("e2808c", "\u200c"),
    ("e2808d", "\u200d"), ("efb88f", "\ufe0f"), ("f3a08480", "\U000e0100"), ("f3a087af", "\U000e01ef"),
    ("c2ac", "¬"), ("e38182", "あ"), ("e385a3", "ㅣ"), ("f09f9880", "😀"), ("61e2808b62", "a\\u200bb"), ("22", '\\"'),
    ("5c", "\\\\"), ("c3a9", "é"), ("6122625c", 'a\\"b\\\\'),
)

# What is shown of the text "aé€😀", whose characters have one to four bytes, for the most bytes that are asked for.
VIEWS_OF_TEXT = (
    (0, "-"), (1, '"a" ..'), (2, '"a" ..'), (3, '"aé" ..'), (5, '"aé" ..'), (6, '"aé€" ..'), (9, '"aé€" ..'),
    (10, '"aé€😀"'), (4096, '"aé€😀"'),
)

# What is shown of a binary message of three bytes, which takes two digits for each.
VIEWS_OF_BYTES = ((0, "-"), (1, "- .."), (2, "00 .."), (5, "00ff .."), (6, "00ff10"))
