"""Tables of JSON objects, as `wsn --json` prints them (printed.py makes tests of them)."""
RUNNING = (
    '{"type":"report","client":{"state":"running"},"server":{"state":"running"},"first":null,"echo":null,'
    '"client_sees":null,"server_sees":null,"outcome":"open"}\n'
)
HALF = (
    '{"type":"report","client":{"state":"running"},"server":{"state":"closed","code":null},"first":"server",'
    '"echo":null,"client_sees":1005,"server_sees":null,"outcome":"half"}\n'
)
FAILED = (
    '{"type":"report","client":{"state":"running"},"server":{"state":"refused","offset":1,"reason":"mask-present",'
    '"code":1002},"first":null,"echo":null,"client_sees":1006,"server_sees":null,"outcome":"failed"}\n'
)

# Options, a capture, its entries, and its report.
ENTRIES = (
    ((), "# 0.001356\nS 810761225c0ae282ac\n",
     '{"type":"event","line":2,"side":"server","time":0.001356,"offset":0,"event":"text","bytes":7,"frames":1,'
     '"text":"a\\"\\\\\\u000a€"}\n', RUNNING),
    (("--view", "2"), "S 01034865\nS 6c80026c6f\n",
     '{"type":"event","line":2,"side":"server","time":null,"offset":0,"event":"text","bytes":5,"frames":2,"text":"He",'
     '"truncated":true}\n', RUNNING),
    (("--view", "4"), "# 1.5\nS 820500ff00\n",
     '{"type":"unfinished","side":"server","time":1.5,"offset":0,"event":"binary","bytes":3,"frames":1,"lacks":2,'
     '"hex":"00ff","truncated":true}\n', RUNNING),
    ((), "# 1.5\nS 82\n",
     '{"type":"unfinished","side":"server","time":1.5,"offset":0,"event":"head","bytes":0,"frames":0,"lacks":null,'
     '"hex":""}\n', RUNNING),
    (("--view", "2"), "# 1.5\nS 8180\n",
     '{"type":"refused","line":2,"side":"server","time":1.5,"offset":0,"place":1,"reason":"mask-present","code":1002,'
     '"hex":"80","truncated":true}\n', FAILED),
    ((), "# 1.5\nS 8800df65\n# 2.5\n",
     '{"type":"event","line":2,"side":"server","time":1.5,"offset":0,"event":"close","bytes":0,"frames":1,"code":null}\n'
     '{"type":"tail","side":"server","time":1.5,"offset":2,"bytes":2,"hex":"df65"}\n', HALF),
    (("--wire",), "C 8a8001020304\n",
     '{"type":"frame","line":1,"side":"client","time":null,"offset":0,"fin":true,"opcode":"pong","key":"01020304",'
     '"length":0,"form":"shortest"}\n', RUNNING),
    ((), b"# \"reset\"\n#\\xe9\n#\xe9\\\n# \xfe\n",
     '{"type":"comment","line":1,"text":" \\"reset\\""}\n{"type":"comment","line":2,"text":"\\\\xe9"}\n'
     '{"type":"comment","line":3,"hex":"e95c"}\n{"type":"comment","line":4,"hex":"20fe"}\n', RUNNING),
)

# A capture, its status, and its report.
REPORTS = (
    ("C 88820000000003e8\nS 880203e8\nS.\nC.\n", 0,
     '{"type":"report","client":{"state":"closed","code":1000},"server":{"state":"closed","code":1000},'
     '"first":"client","echo":true,"client_sees":1000,"server_sees":1000,"outcome":"clean"}\n'),
    ("C 88820000000003e8\nS 880203e9\n", 0,
     '{"type":"report","client":{"state":"closed","code":1000},"server":{"state":"closed","code":1001},'
     '"first":"client","echo":false,"client_sees":1001,"server_sees":1000,"outcome":"complete"}\n'),
    ("S.", 1,
     '{"type":"report","client":{"state":"running"},"server":{"state":"ended"},"first":null,"echo":null,'
     '"client_sees":1006,"server_sees":null,"outcome":"abnormal"}\n'),
    ("S 8105\nS.\n", 1,
     '{"type":"report","client":{"state":"running"},"server":{"state":"cut"},"first":null,"echo":null,'
     '"client_sees":1006,"server_sees":null,"outcome":"abnormal"}\n'),
    ("S 8800\n", 1, HALF),
)

# Three messages, one in two frames; five pings and four pongs.
COUNTED = b"\x81\x00\x82\x00\x01\x00\x80\x00" + b"\x89\x00" * 5 + b"\x8a\x00" * 4
COUNTS = '"messages":3,"pings":5,"pongs":4'
# What a server sent, the status, and the verdict.
VERDICTS = (
    (COUNTED + b"\x01\x00\x88\x02\x03\xe8AB", 0,
     f'{{"type":"verdict","verdict":"accepted","used":32,"tail":2,"unfinished":0,"frames":15,{COUNTS},"close":{{"code":1000}}}}\n'),
    (COUNTED + b"\x88\x00AB", 0,
     f'{{"type":"verdict","verdict":"accepted","used":28,"tail":2,"unfinished":null,"frames":14,{COUNTS},'
     '"close":{"code":null}}\n'),
    (COUNTED, 0,
     f'{{"type":"verdict","verdict":"accepted","used":26,"tail":0,"unfinished":null,"frames":13,{COUNTS},"close":null}}\n'),
    (COUNTED + b"\x01\x00\x80", 1,
     f'{{"type":"verdict","verdict":"cut","used":29,"unfinished":0,"frames":14,{COUNTS}}}\n'),
    (COUNTED + b"\x81\x03G\xfcn", 1, '{"type":"verdict","verdict":"refused","offset":29,"reason":"text-bad","code":1007}\n'),
)

# A frame in the longest encoding, and the last of its message.
LONG_FRAMES = b"\x02\x7f\0\0\0\0\0\0\xff\xff" + b"*" * 65_535 + b"\x80\x00"
LONG_FRAMES_OBJECTS = (
    '{"type":"frame","offset":0,"fin":false,"opcode":"binary","key":null,"length":65535,"form":"eight"}\n'
    '{"type":"frame","offset":65545,"fin":true,"opcode":"cont","key":null,"length":0,"form":"shortest"}\n'
    '{"type":"verdict","verdict":"accepted","used":65547,"tail":0,"unfinished":null,"frames":2,"messages":1,"pings":0,'
    '"pongs":0,"close":null}\n'
)

# Two streams of a server, the status, and the comparison.
COMPARISONS = (
    (b"\x81\x02Hi", b"\x01\x01H\x80\x01i", 0, '{"type":"comparison","answer":"equal"}\n'),
    (b"\x89\0" * 4, b"\x89\0" * 3, 1, '{"type":"comparison","answer":"different","event":3}\n'),
    (b"\x81", b"\xc1", 1,
     '{"type":"comparison","answer":"first","verdict":{"verdict":"cut","used":1,"unfinished":null,"frames":0,"messages":0,'
     '"pings":0,"pongs":0}}\n'),
    (b"\x89\0", b"\x81\x80", 1,
     '{"type":"comparison","answer":"second","verdict":{"verdict":"refused","offset":1,"reason":"mask-present","code":1002}}\n'),
)
