"""gevent-websocket: its server."""
import sys

import geventwebsocket
import lines
from gevent import pywsgi
from geventwebsocket.handler import WebSocketHandler


def say(socket, name):
    for text in lines.texts(name):
        socket.send(text)
    if lines.is_short(name):
        socket.send(lines.BINARY, binary=True)
        socket.send_frame("p", socket.OPCODE_PING)
    if lines.texts(name):
        socket.close(1000, "bye")


def talk(environment, start_response):
    socket, name = environment["wsgi.websocket"], environment["PATH_INFO"].lstrip("/")
    code = None
    try:
        say(socket, name)
        while (message := socket.receive()) is not None:
            lines.message(name, message)
    except geventwebsocket.WebSocketError as error:
        code = type(error).__name__
    lines.closed(name, code)
    return []


server = pywsgi.WSGIServer(("127.0.0.1", int(sys.argv[2])), talk, handler_class=WebSocketHandler, log=None)
server.start()
lines.line("ready")
server.serve_forever()
