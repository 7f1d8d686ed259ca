"""Autobahn: its protocols over asyncio."""
import asyncio
import sys

import lines
from autobahn.asyncio import websocket


class Talk:
    def say(self, name):
        self.name = name
        for text in lines.texts(name):
            self.sendMessage(text.encode())
        if lines.is_short(name):
            self.sendMessage(lines.BINARY, isBinary=True)
            self.sendPing(b"p")
            self.sendMessage(b"Hello", fragmentSize=3)
        if lines.texts(name):
            self.sendClose(1000, "bye")

    def onMessage(self, payload, isBinary):
        lines.line(self.name, "binary" if isBinary else "text", payload.hex())

    def onClose(self, wasClean, code, reason):
        lines.closed(self.name, code)


class Server(Talk, websocket.WebSocketServerProtocol):
    def onConnect(self, request):
        self.name = request.path.lstrip("/")

    def onOpen(self):
        self.say(self.name)


class Client(Talk, websocket.WebSocketClientProtocol):
    def onOpen(self):
        self.say(self.factory.path.lstrip("/"))


async def connect(url, _):
    factory = websocket.WebSocketClientFactory(url)
    factory.protocol = Client
    await asyncio.get_running_loop().create_connection(factory, factory.host, factory.port)


async def server(port):
    factory = websocket.WebSocketServerFactory(f"ws://127.0.0.1:{port}")
    factory.protocol = Server
    await asyncio.get_running_loop().create_server(factory, "127.0.0.1", port)
    lines.line("ready")
    await asyncio.Future()


async def client():
    await lines.tasks(connect)


asyncio.run(server(int(sys.argv[2])) if sys.argv[1] == "server" else client())
