"""ws4py: its threaded client, and its server over wsgiref."""
import sys
from wsgiref.simple_server import make_server

import lines
from ws4py.client.threadedclient import WebSocketClient
from ws4py.server.wsgirefserver import WebSocketWSGIRequestHandler, WSGIServer
from ws4py.server.wsgiutils import WebSocketWSGIApplication
from ws4py.websocket import WebSocket


class Talk:
    def say(self):
        for text in lines.texts(self.name):
            self.send(text)
        if lines.is_short(self.name):
            self.send(lines.BINARY, binary=True)
            self.ping("p")
            self.send(part for part in (b"Hel", b"lo"))
        if lines.texts(self.name):
            self.close(1000, "bye")

    def opened(self):
        self.say()

    def received_message(self, message):
        lines.line(self.name, "binary" if message.is_binary else "text", message.data.hex())

    def closed(self, code, reason=None):
        lines.closed(self.name, code)


class Server(Talk, WebSocket):
    @property
    def name(self):
        return self.environ["PATH_INFO"].lstrip("/")


class Client(Talk, WebSocketClient):
    @property
    def name(self):
        return self.url.rsplit("/", 1)[1]


def connect(url, _):
    client = Client(url)
    client.connect()
    client.run_forever()


if sys.argv[1] == "server":
    server = make_server("127.0.0.1", int(sys.argv[2]), server_class=WSGIServer, handler_class=WebSocketWSGIRequestHandler,
                         app=WebSocketWSGIApplication(handler_cls=Server))
    server.initialize_websockets_manager()
    lines.line("ready")
    server.serve_forever()
else:
    lines.threads(connect)
