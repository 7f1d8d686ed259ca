"""aiohttp: its server and its client."""
import asyncio
import sys

import aiohttp
import lines
from aiohttp import web

OPTIONS = {"max_msg_size": 0} if lines.is_asked("unlimited") else {}


async def talk(socket, name):
    for text in lines.texts(name):
        await socket.send_str(text)
    if lines.is_short(name):
        await socket.send_bytes(lines.BINARY)
        await socket.ping(b"p")
    if lines.texts(name):
        await socket.close(code=1000, message=b"bye")
    async for message in socket:
        if message.type in (aiohttp.WSMsgType.TEXT, aiohttp.WSMsgType.BINARY):
            lines.message(name, message.data)
    lines.closed(name, socket.close_code)


async def handle(request):
    socket = web.WebSocketResponse(**OPTIONS)
    await socket.prepare(request)
    await talk(socket, request.path.lstrip("/"))
    return socket


async def connect(url, name):
    async with aiohttp.ClientSession() as session:
        async with session.ws_connect(url, **OPTIONS) as socket:
            await talk(socket, name)


async def server(port):
    application = web.Application()
    application.router.add_get("/{name}", handle)
    runner = web.AppRunner(application)
    await runner.setup()
    await web.TCPSite(runner, "127.0.0.1", port).start()
    lines.line("ready")
    await asyncio.Future()


asyncio.run(server(int(sys.argv[2])) if sys.argv[1] == "server" else lines.tasks(connect))
