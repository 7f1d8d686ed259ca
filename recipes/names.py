"""The names of the recipes in what they say: as they are called here, or as they are installed."""

import os
import sys

INSTALLED = {"record": "wsn-record", "pcap2wsn": "wsn-pcap", "netlog2wsn": "wsn-netlog", "inflate": "wsn-inflate",
             "check": "wsn-check", "said": "wsn-said", "build": "wsn-page"}  # fmt: skip


def called() -> str:
    """The name that this recipe was called by."""
    return os.path.basename(sys.argv[0])


def named(recipe: str) -> str:
    """How a recipe such as recipes/record is called, by one who called this one by its name."""
    return INSTALLED[os.path.basename(recipe)] if called() in INSTALLED.values() else recipe
