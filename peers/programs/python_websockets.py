"""websockets: its API for asyncio."""
import asyncio
import sys

import lines
import websockets

OPTIONS = {"max_size": None} if lines.is_asked("unlimited") else {}


async def say(connection, name):
    for text in lines.texts(name):
        await connection.send(text)
    if lines.is_short(name):
        await connection.send(lines.BINARY)
        await connection.ping(b"p")
        await connection.send(lines.FRAGMENTS)
    if lines.texts(name):
        await connection.close(1000, "bye")


async def talk(connection):
    name = connection.path.lstrip("/")
    try:
        await say(connection, name)
        async for message in connection:
            lines.message(name, message)
    except websockets.exceptions.ConnectionClosed:
        pass
    await connection.wait_closed()
    lines.closed(name, connection.close_code)


async def connect(url, _):
    async with websockets.connect(url, **OPTIONS) as connection:
        await talk(connection)


async def server(port):
    async with websockets.serve(talk, "127.0.0.1", port, **OPTIONS):
        lines.line("ready")
        await asyncio.Future()


asyncio.run(server(int(sys.argv[2])) if sys.argv[1] == "server" else lines.tasks(connect))
