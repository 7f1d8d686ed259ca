"""Tornado: WebSocketHandler, and websocket_connect."""
import asyncio
import sys

import lines
from tornado import web, websocket


async def say(socket, name):
    for text in lines.texts(name):
        await socket.write_message(text)
    if lines.is_short(name):
        await socket.write_message(lines.BINARY, binary=True)
        socket.ping(b"p")
    if lines.texts(name):
        socket.close(1000, "bye")


class Handler(websocket.WebSocketHandler):
    async def open(self, name):
        self.name = name
        await say(self, name)

    def on_message(self, message):
        lines.message(self.name, message)

    def on_close(self):
        lines.closed(self.name, self.close_code)


async def connect(url, name):
    socket = await websocket.websocket_connect(url)
    await say(socket, name)
    while (message := await socket.read_message()) is not None:
        lines.message(name, message)
    lines.closed(name, socket.close_code)


async def server(port):
    web.Application([("/(.*)", Handler)]).listen(port, "127.0.0.1")
    lines.line("ready")
    await asyncio.Future()


asyncio.run(server(int(sys.argv[2])) if sys.argv[1] == "server" else lines.tasks(connect))
