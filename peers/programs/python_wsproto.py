"""wsproto: as its documentation's examples use it, over a socket and a thread for each connection."""
import socket
import socketserver
import sys
import urllib.parse

import lines
from wsproto import ConnectionType, WSConnection
from wsproto import events


class Talk:
    def __init__(self, sock, kind, name=None):
        self.sock, self.connection, self.name, self.code, self.part = sock, WSConnection(kind), name, None, None

    def send(self, event):
        self.sock.sendall(self.connection.send(event))

    def say(self):
        for text in lines.texts(self.name):
            self.send(events.TextMessage(data=text))
        if lines.is_short(self.name):
            self.send(events.BytesMessage(data=lines.BINARY))
            self.send(events.Ping(payload=b"p"))
            self.send(events.TextMessage(data="Hel", message_finished=False))
            self.send(events.TextMessage(data="lo"))
        if lines.texts(self.name):
            self.send(events.CloseConnection(code=1000, reason="bye"))

    def handle(self, event):
        if isinstance(event, events.Request):
            self.name = event.target.lstrip("/")
            self.send(events.AcceptConnection())
            self.say()
        elif isinstance(event, events.AcceptConnection):
            self.say()
        elif isinstance(event, events.Ping):
            self.send(event.response())
        elif isinstance(event, events.CloseConnection):
            self.code = event.code
            if self.connection.state.name != "CLOSED":
                self.send(event.response())
        elif isinstance(event, events.Message):
            self.part = event.data if self.part is None else self.part + event.data
            if event.message_finished:
                lines.message(self.name, self.part)
                self.part = None

    def run(self):
        try:
            while self.connection.state.name not in ("CLOSED", "REJECTING"):
                data = self.sock.recv(65536)
                self.connection.receive_data(data or None)
                for event in self.connection.events():
                    self.handle(event)
                if not data:
                    break
        except OSError:
            pass
        self.sock.close()
        lines.closed(self.name, self.code)


class Handler(socketserver.BaseRequestHandler):
    def handle(self):
        Talk(self.request, ConnectionType.SERVER).run()


class Server(socketserver.ThreadingTCPServer):
    daemon_threads, allow_reuse_address, request_queue_size = True, True, 128


def connect(url, name):
    parts = urllib.parse.urlsplit(url)
    talk = Talk(socket.create_connection((parts.hostname, parts.port)), ConnectionType.CLIENT, name)
    talk.send(events.Request(host=parts.netloc, target=parts.path))
    talk.run()


if sys.argv[1] == "server":
    with Server(("127.0.0.1", int(sys.argv[2])), Handler) as server:
        lines.line("ready")
        server.serve_forever()
else:
    lines.threads(connect)
