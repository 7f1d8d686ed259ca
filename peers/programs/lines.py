"""The line protocol of the programs in Python, and what each peer sends of its own (see ../README.md)."""
import sys
import threading

BINARY = bytes([0, 1, 254, 255])
FRAGMENTS = ("Hel", "lo")
PRINTING = threading.Lock()


def is_asked(setting):
    """Whether the word of a setting is before the role, which then is the first word."""
    found = sys.argv[1] == setting
    if found:
        del sys.argv[1]
    return found


def texts(name):
    """What a session of this name begins with: none if the peer is only to listen."""
    if name.startswith("long"):
        return ("a" * 65535, "a" * 65536)
    return ("", "Hello", "a" * 125, "a" * 126) if name.startswith("short") else ()


def is_short(name):
    return name.startswith("short")


def line(*words):
    with PRINTING:
        sys.stdout.write(" ".join(map(str, words)) + "\n")
        sys.stdout.flush()


def message(name, payload):
    if isinstance(payload, str):
        line(name, "text", payload.encode("utf-8", "surrogatepass").hex())
    else:
        line(name, "binary", bytes(payload).hex())


def closed(name, code):
    line(name, "closed", "-" if code is None else code)


def threads(connect):
    """Calls `connect` with each URL that comes, in a thread of its own."""
    line("ready")
    for url in sys.stdin:
        threading.Thread(target=connect, args=(url.strip(), url.strip().rsplit("/", 1)[1]), daemon=True).start()


async def tasks(connect):
    """Calls the coroutine `connect` with each URL that comes, beside the others."""
    import asyncio

    reader = asyncio.StreamReader()
    await asyncio.get_running_loop().connect_read_pipe(lambda: asyncio.StreamReaderProtocol(reader), sys.stdin)
    line("ready")
    kept = set()
    while url := (await reader.readline()).decode().strip():
        kept.add(asyncio.ensure_future(connect(url, url.rsplit("/", 1)[1])))
