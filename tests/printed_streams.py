"""Tables of streams, in hexadecimal, and what `wsn show --role`, `frames` and `normal` print of them (printed.py makes
tests of them); and some of the vectors (vectors.py) with their verdicts.
"""
# A stream of an endpoint, the status, what is shown, and the line of the verdict.
STREAMS = (
    ("server", "", 0, "", "accepted 0 tail 0 unfinished -\n"),
    ("server", "010348656c890080026c6f", 0, 'S - 5 ping 0 1 ""\nS - 0 text 5 2 "Hello"\n',
     "accepted 11 tail 0 unfinished -\n"),
    ("client", "818537fa213d7f9f4d5158", 0, 'C - 0 text 5 1 "Hello"\n', "accepted 11 tail 0 unfinished -\n"),
    ("server", "810548", 1, 'S - 0 unfinished text 1 1 lacks 4 "H"\n', "cut 3\n"),
    ("server", "81", 1, "S - 0 unfinished head 0 0 lacks - -\n", "cut 1\n"),
    ("server", "8800aa", 0, "S - 0 close 0 1 -\nS - 2 tail 1 aa\n", "accepted 2 tail 1 unfinished -\n"),
    ("server", "0101488800", 0, 'S - 0 unfinished text 1 1 lacks 0 "H"\nS - 3 close 0 1 -\n',
     "accepted 5 tail 0 unfinished 1\n"),
    ("server", "8101488105477272fcdf65880203ef", 1,
     'S - 0 text 1 1 "H"\nS - 3 refused 8 text-bad 1007 477272fc\nS - 8 bad-character 3 fc "Grr\\xfc"\n',
     "refused 8 text-bad 1007\n"),
)

# What an endpoint sent, up to a byte of a head: the endpoint, the bytes, and the lines that `frames` prints, for the
# shortest encoding of lengths and for any. In order: first bytes, second bytes, lengths in two bytes and in eight.
HEADS = (
    ("server", "c1", "refused 0 reserved-bits 1002\n"),
    ("server", "0b", "refused 0 reserved-opcode 1002\n"),
    ("server", "09", "refused 0 control-not-final 1002\n"),
    ("server", "010080", "0 more text - 0\ncut 3\n"),
    ("server", "01008000", "0 more text - 0\n2 fin cont - 0\naccepted 4 tail 0 unfinished -\n"),
    ("server", "01", "cut 1\n"),
    ("server", "0100", "0 more text - 0\ncut 2\n"),
    ("server", "8a", "cut 1\n"),
    ("server", "8a00", "0 fin pong - 0\naccepted 2 tail 0 unfinished -\n"),
    ("client", "8801", "refused 1 mask-missing 1002\n"),
    ("server", "8801", "refused 1 close-one-byte 1002\n"),
    ("server", "88fe", "refused 1 mask-present 1002\n"),
    ("server", "887e", "refused 1 control-too-long 1002\n"),
    ("server", "887d", "0 fin close - 125\ncut 2\n"),
    ("server", "817f", "cut 2\n"),
    ("client", "81fe", "cut 2\n"),
    ("client", "81fe007e01020304", "0 fin text 01020304 126\ncut 8\n"),
)
LENGTHS = (
    ("817e007d", "refused 3 length-not-minimal 1002\n", "0 fin text - 125 two\ncut 4\n"),
    ("817e007e", "0 fin text - 126\ncut 4\n", "0 fin text - 126\ncut 4\n"),
    ("817f8000000000000000", "refused 9 length-top-bit 1002\n", "refused 9 length-top-bit 1002\n"),
    ("817f000000000000ffff", "refused 9 length-not-minimal 1002\n", "0 fin text - 65535 eight\ncut 10\n"),
    ("817f0000000000010000", "0 fin text - 65536\ncut 10\n", "0 fin text - 65536\ncut 10\n"),
)
# The number of bytes in a server's binary message, and the head that `normal` writes, whatever its encoding was.
WRITTEN = ((125, "827d"), (126, "827e007e"), (65_535, "827effff"), (65_536, "827f0000000000010000"))

# A server's Close, and the code in the verdict.
CLOSES = (("8800", "null"), ("880203e8", "1000"), ("880203f6", "1014"), ("8803138741", "4999"))

# What an endpoint sent, which is refused for a bad character: the endpoint, the most bytes of a payload that are shown,
# the bytes, the lines that are shown, that of the verdict, the objects that are shown, that of the verdict. In order:
# Latin-1; a byte that begins no character; the same after characters that are escaped; a surrogate, of which the second
# byte is the offending one; a view that cuts the text before; a view of 0; after a character that is in two fragments;
# in three fragments with an empty one and a ping between.
BAD_CHARACTERS_OF_STREAMS = (
    ("client", 48, "818e000000007b226e616d65223a2252656ee9204475706f6e74227d",
     "C - 0 refused 19 text-bad 1007 7b226e616d65223a2252656ee920\n"
     'C - 18 bad-character 12 e920 "{\\"name\\":\\"Ren\\xe9\\x20"\n', "refused 19 text-bad 1007\n",
     '{"type":"refused","side":"client","offset":0,"place":19,"reason":"text-bad","code":1007,'
     '"hex":"7b226e616d65223a2252656ee920","character":{"offset":18,"in_payload":12,"hex":"e920",'
     '"before":"{\\"name\\":\\"Ren"}}\n',
     '{"type":"verdict","verdict":"refused","offset":19,"reason":"text-bad","code":1007}\n'),
    ("server", 48, "8101ff", 'S - 0 refused 2 text-bad 1007 ff\nS - 2 bad-character 0 ff "\\xff"\n',
     "refused 2 text-bad 1007\n",
     '{"type":"refused","side":"server","offset":0,"place":2,"reason":"text-bad","code":1007,"hex":"ff",'
     '"character":{"offset":2,"in_payload":0,"hex":"ff","before":""}}\n',
     '{"type":"verdict","verdict":"refused","offset":2,"reason":"text-bad","code":1007}\n'),
    ("server", 48, "8105225c1f7fff",
     'S - 0 refused 6 text-bad 1007 225c1f7fff\nS - 6 bad-character 4 ff "\\"\\\\\\u001f\\u007f\\xff"\n',
     "refused 6 text-bad 1007\n",
     '{"type":"refused","side":"server","offset":0,"place":6,"reason":"text-bad","code":1007,"hex":"225c1f7fff",'
     '"character":{"offset":6,"in_payload":4,"hex":"ff","before":"\\"\\\\\\u001f\\u007f"}}\n',
     '{"type":"verdict","verdict":"refused","offset":6,"reason":"text-bad","code":1007}\n'),
    ("server", 48, "810461eda080",
     'S - 0 refused 4 text-bad 1007 61eda0\nS - 3 bad-character 1 eda0 "a\\xed\\xa0"\n', "refused 4 text-bad 1007\n",
     '{"type":"refused","side":"server","offset":0,"place":4,"reason":"text-bad","code":1007,"hex":"61eda0",'
     '"character":{"offset":3,"in_payload":1,"hex":"eda0","before":"a"}}\n',
     '{"type":"verdict","verdict":"refused","offset":4,"reason":"text-bad","code":1007}\n'),
    ("server", 6, "81046162e963",
     'S - 0 refused 5 text-bad 1007 ..62e963\nS - 4 bad-character 2 e963 .."b\\xe9\\x63"\n',
     "refused 5 text-bad 1007\n",
     '{"type":"refused","side":"server","offset":0,"place":5,"reason":"text-bad","code":1007,"hex":"62e963",'
     '"truncated":true,"character":{"offset":4,"in_payload":2,"hex":"e963","before":"b","truncated":true}}\n',
     '{"type":"verdict","verdict":"refused","offset":5,"reason":"text-bad","code":1007}\n'),
    ("server", 0, "81046162e963", "S - 0 refused 5 text-bad 1007 -\nS - 4 bad-character 2 - -\n",
     "refused 5 text-bad 1007\n",
     '{"type":"refused","side":"server","offset":0,"place":5,"reason":"text-bad","code":1007,"hex":"",'
     '"truncated":true,"character":{"offset":4,"in_payload":2,"hex":"","before":"","truncated":true}}\n',
     '{"type":"verdict","verdict":"refused","offset":5,"reason":"text-bad","code":1007}\n'),
    ("server", 48, "0101e2800482ac61ff",
     'S - 0 unfinished text 1 1 lacks 0 "" ..\nS - 3 refused 8 text-bad 1007 82ac61ff\n'
     'S - 8 bad-character 4 ff "€a\\xff"\n', "refused 8 text-bad 1007\n",
     '{"type":"unfinished","side":"server","offset":0,"event":"text","bytes":1,"frames":1,"lacks":0,"text":"",'
     '"truncated":true}\n'
     '{"type":"refused","side":"server","offset":3,"place":8,"reason":"text-bad","code":1007,"hex":"82ac61ff",'
     '"character":{"offset":8,"in_payload":4,"hex":"ff","before":"€a"}}\n',
     '{"type":"verdict","verdict":"refused","offset":8,"reason":"text-bad","code":1007}\n'),
    ("server", 48, "0101f00000890000019f80022021",
     'S - 5 ping 0 1 ""\nS - 0 unfinished text 2 3 lacks 0 "" ..\nS - 10 refused 12 text-bad 1007 20\n'
     'S - 2 bad-character 0 f09f20 "\\xf0\\x9f\\x20"\n', "refused 12 text-bad 1007\n",
     '{"type":"event","side":"server","offset":5,"event":"ping","bytes":0,"frames":1,"text":""}\n'
     '{"type":"unfinished","side":"server","offset":0,"event":"text","bytes":2,"frames":3,"lacks":0,"text":"",'
     '"truncated":true}\n'
     '{"type":"refused","side":"server","offset":10,"place":12,"reason":"text-bad","code":1007,"hex":"20",'
     '"character":{"offset":2,"in_payload":0,"hex":"f09f20","before":""}}\n',
     '{"type":"verdict","verdict":"refused","offset":12,"reason":"text-bad","code":1007}\n'),
)

# Some streams of a server for each rule, under short names. The number of a name is a group of Autobahn's: 1 framing,
# 2 pings and pongs, 3 reserved bits, 4 opcodes, 5 fragmentation, 6 UTF-8, 7 closing. In each line the short name, the
# name of the vector, and after `=>` the line of its verdict.
CONFORMANCE = """\
1.a an empty text => accepted 2 tail 0 unfinished -
1.b a binary message of 125 bytes => accepted 127 tail 0 unfinished -
1.c a binary message of 126 bytes => accepted 130 tail 0 unfinished -
1.d a binary message of 65,536 bytes => accepted 65546 tail 0 unfinished -
2.a an empty ping => accepted 2 tail 0 unfinished -
2.b a ping of 125 bytes => accepted 127 tail 0 unfinished -
2.c control-too-long: a ping of 126 bytes => refused 1 control-too-long 1002
2.d a pong of one byte => accepted 3 tail 0 unfinished -
3.a reserved-bits: the first, and a length => refused 0 reserved-bits 1002
3.b reserved-bits: the second => refused 0 reserved-bits 1002
3.c reserved-bits: the third => refused 0 reserved-bits 1002
3.d reserved-bits: all, after a ping => refused 2 reserved-bits 1002
4.a reserved-opcode: 3, and a length => refused 0 reserved-opcode 1002
4.b reserved-opcode: 11 => refused 0 reserved-opcode 1002
4.c reserved-opcode: 11 without FIN => refused 0 reserved-opcode 1002
4.d reserved-opcode: 15 after a text => refused 2 reserved-opcode 1002
5.a control-not-final: a ping, and a length => refused 0 control-not-final 1002
5.b nothing-to-continue: a last fragment, and a length => refused 0 nothing-to-continue 1002
5.c a ping between two fragments => accepted 8 tail 0 unfinished -
5.d a text of three empty fragments => accepted 6 tail 0 unfinished -
5.e message-open: a binary message inside a text => refused 2 message-open 1002
5.f nothing-to-continue: a fragment => refused 0 nothing-to-continue 1002
6.a a character of two bytes => accepted 4 tail 0 unfinished -
6.b text-bad: a zero in two bytes => refused 2 text-bad 1007
6.c text-bad: a surrogate => refused 3 text-bad 1007
6.d text-bad: a number past the last character => refused 3 text-bad 1007
6.e the last character of four bytes => accepted 6 tail 0 unfinished -
6.f text-bad: two bytes' worth in three => refused 3 text-bad 1007
6.g a binary message of a byte that no text has => accepted 3 tail 0 unfinished -
6.h a character of four bytes in two fragments => accepted 8 tail 0 unfinished -
7.a an empty Close => accepted 2 tail 0 unfinished -
7.b close-one-byte: a Close of one byte => refused 1 close-one-byte 1002
7.c a Close with a reason of 123 bytes => accepted 127 tail 0 unfinished -
7.d control-too-long: a Close whose length follows => refused 1 control-too-long 1002
7.e close-code: 1005 => refused 3 close-code 1002
7.f close-code: 2999 => refused 3 close-code 1002
7.g close code 3000 => accepted 4 tail 0 unfinished -
7.h close code 4999 => accepted 4 tail 0 unfinished -
7.i close-code: 5000 => refused 3 close-code 1002
7.j a Close after a Close => accepted 2 tail 2 unfinished -
"""
