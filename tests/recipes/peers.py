"""Servers and clients of python3-websockets for the recipes' tests, on loopback.

    peers.py serve KIND ADDRESS PORT [CERTIFICATE KEY]     serves until it is ended, and says `ready`
    peers.py talk KIND URL [CERTIFICATE]                   talks once

Kinds of servers: `echo` sends each message back, `closes` answers one in fragments and closes, `latin` greets in
Latin-1, `deflate` is an echo that compresses (`deflate,server_max_window_bits=9,..` by these parameters). Kinds of
clients: `basic`, `abort`, `deflate`, `compressed`, `once`, `listen`.
"""

import asyncio
import socket
import ssl
import struct
import sys

import websockets
from websockets.extensions.permessage_deflate import ServerPerMessageDeflateFactory

# What the client `compressed` sends; a list is a message in fragments.
MESSAGES = ["Hello", "Hello", ["Fragments ", "of \u20ac", "", " a message" * 100], "", bytes(range(256)) * 300,
            "".join(chr(32 + at * at % 90) for at in range(70_000)), "Hello"]  # fmt: skip


async def echo(peer, _path=None):
    try:
        async for message in peer:
            await peer.send(message)
    except websockets.ConnectionClosed:
        pass


async def closes(peer, _path=None):
    await peer.recv()
    await peer.send(["one", " two", " three"])
    await peer.close(1001, "going away")


async def latin(peer, _path=None):
    await peer.send("Hello")
    await peer.write_frame(True, websockets.frames.Opcode.TEXT, "Grüße".encode("latin-1"))
    await peer.wait_closed()


async def basic(peer):
    await peer.send("Hello")
    await peer.recv()
    await peer.send(["Fragments ", "of \u20ac", " a message"])
    await peer.recv()
    await (await peer.ping(b"are you there"))
    await peer.send(bytes(range(256)) * 40)
    await peer.recv()
    await peer.close(1000, "bye")


async def once(peer):
    await peer.send("Hello")
    await listen(peer)


async def listen(peer):
    async for _ in peer:
        pass


async def abort(peer):
    await peer.send("one")
    await peer.recv()
    connection = peer.transport.get_extra_info("socket")
    connection.setsockopt(socket.SOL_SOCKET, socket.SO_LINGER, struct.pack("ii", 1, 0))
    peer.transport.abort()


async def deflate(peer):
    for text in "Hello", "Hello", "Goodbye":
        await peer.send(text)
        await peer.recv()
    await peer.close()


async def compressed(peer):
    for message in MESSAGES:
        await peer.send(message)
        await peer.recv()
    await peer.close(1000, "bye")


def parameters(words):
    """The extension's parameters of a kind."""
    pairs = [word.partition("=") for word in words]
    return {name: int(value) if value else True for name, _, value in pairs}


async def serve(kind, address, port, *certificate):
    tls = None
    if certificate:
        tls = ssl.SSLContext(ssl.PROTOCOL_TLS_SERVER)
        tls.load_cert_chain(*certificate)
    kind, *words = kind.split(",")
    handler = {"echo": echo, "deflate": echo, "closes": closes, "latin": latin}[kind]
    how = {"compression": "deflate" if kind == "deflate" else None}
    if words:
        how = {"compression": None, "extensions": [ServerPerMessageDeflateFactory(**parameters(words))]}
    async with websockets.serve(handler, address, int(port), ssl=tls, max_size=None, **how):
        print("ready", flush=True)
        await asyncio.Future()


async def talk(kind, url, *certificate):
    tls = ssl.create_default_context(cafile=certificate[0]) if certificate else None
    client = {"basic": basic, "once": once, "listen": listen, "abort": abort, "deflate": deflate,
              "compressed": compressed}[kind]  # fmt: skip
    compression = "deflate" if kind in ("deflate", "compressed") else None
    async with websockets.connect(url, ssl=tls, compression=compression) as peer:
        try:
            await client(peer)
        except websockets.ConnectionClosed as closed:
            print(f"closed: {closed}")


if __name__ == "__main__":
    work = {"serve": serve, "talk": talk}[sys.argv[1]]
    try:
        asyncio.run(work(*sys.argv[2:]))
    except (KeyboardInterrupt, websockets.ConnectionClosed):
        pass
