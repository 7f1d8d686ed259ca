"""websocket-client: its WebSocket class, a thread for each connection. By `recv()`, or with the word `data` before the
role by `recv_data()`."""
import lines
import websocket

BY_DATA = lines.is_asked("data")


def say(socket, name):
    for text in lines.texts(name):
        socket.send(text)
    if lines.is_short(name):
        socket.send_binary(lines.BINARY)
        socket.ping("p")
        socket.send_frame(websocket.ABNF.create_frame("Hel", websocket.ABNF.OPCODE_TEXT, 0))
        socket.send_frame(websocket.ABNF.create_frame("lo", websocket.ABNF.OPCODE_CONT, 1))
    if lines.texts(name):
        socket.close(1000, b"bye")


def receive(socket, name):
    """Messages until a Close, which `recv` reports as an empty text."""
    while socket.connected:
        message = socket.recv()
        if socket.connected:
            lines.message(name, message)


def receive_data(socket, name):
    """Messages until a Close, whose code it returns."""
    while socket.connected:
        opcode, payload = socket.recv_data()
        if opcode == websocket.ABNF.OPCODE_CLOSE:
            return int.from_bytes(payload[:2], "big") if len(payload) > 1 else None
        lines.line(name, "text" if opcode == websocket.ABNF.OPCODE_TEXT else "binary", payload.hex())


def connect(url, name):
    socket, code = websocket.create_connection(url), None
    try:
        say(socket, name)
        code = (receive_data if BY_DATA else receive)(socket, name)
    except Exception as error:  # The documentation has no base class of what recv raises.
        code = type(error).__name__
    socket.shutdown()
    lines.closed(name, code)


lines.threads(connect)
