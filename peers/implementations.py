"""The implementations, each with its program, Debian packages, and how the program is built and started."""
import os
import shutil
import subprocess

HERE = os.path.dirname(os.path.realpath(__file__))
PROGRAMS = f"{HERE}/programs"
BUILT = os.environ.get("PEERS_BUILT") or f"/tmp/wsn-peers-{os.getuid()}"
BOTH = ("server", "client")


class CannotRun(Exception):
    """The peer isn't installed, or its program can't be built."""


class Peer:
    """`packages` are Debian's, the one with the implementation first; `flags` are for the compiler, or Java's class
    path; `jobs` is the maximum number of sessions at once; `note` is for its page; `words` come before the role on the
    command line. A variant, which isn't counted, is the peer `of` with what is `set`; the others have their defaults.
    Of a peer that at times loses the Close with which it fails a connection, no such Close is compared."""

    def __init__(self, name, file, packages, roles=BOTH, flags="", jobs=48, note="", built_as=None, words=(), of=None,
                 set="", loses_close=False):
        self.name, self.file, self.packages, self.roles = name, file, packages.split(), roles
        self.flags, self.jobs, self.note, self.words = flags, jobs, note, words
        self.of, self.set, self.loses_close = of, set, loses_close
        self.stem = built_as or file.split(".")[0]

    def is_variant(self):
        return self.of is not None

    def version(self):
        """Debian's version of the first package."""
        words = ["dpkg-query", "-W", "-f=${Status} ${Version}", self.packages[0]]
        shown = subprocess.run(words, capture_output=True, text=True)
        if "ok installed" not in shown.stdout:
            raise CannotRun(f"{self.packages[0]} isn't installed")
        return shown.stdout.split()[-1]

    def command(self):
        """Builds the program if its source is newer, and returns the words that start it."""
        self.version()
        return [*BUILDERS[self.file.rsplit(".", 1)[-1]](self), *self.words]

    def environment(self):
        return {**os.environ, "NODE_PATH": "/usr/share/nodejs"}


def source(peer):
    return f"{PROGRAMS}/{peer.file}"


def built(peer, compile_it):
    """The file that `compile_it` makes of the peer's source, made anew if the source is newer."""
    target = f"{BUILT}/{peer.stem}"
    os.makedirs(BUILT, exist_ok=True)
    if not os.path.exists(target) or os.path.getmtime(target) < os.path.getmtime(source(peer)):
        ran = subprocess.run(compile_it(target), shell=True, capture_output=True, text=True, cwd=PROGRAMS)
        if ran.returncode:
            raise CannotRun(f"{peer.file} can't be built: {ran.stderr[-1500:]}")
    return target


def by_interpreter(*words):
    def command(peer):
        if not shutil.which(words[0]):
            raise CannotRun(f"{words[0]} isn't there")
        return [*words, source(peer)]

    return command


def by_compiler(words):
    def command(peer):
        return [built(peer, lambda target: f"{words} -o {target} {peer.file} {peer.flags}")]

    return command


def by_go(peer):
    settings = "GO111MODULE=off GOPATH=/usr/share/gocode GOFLAGS=-p=1 GOCACHE=" + f"{BUILT}/go"
    return [built(peer, lambda target: f"{settings} go build -o {target} {peer.file} lines.go")]


def by_java(peer):
    path = peer.flags or "."
    folder = built(peer, lambda target: f"javac -cp '{path}' -d {target} {peer.file} Lines.java && touch {target}")
    return ["java", "-Xmx256m", "-XX:+UseSerialGC", "-cp", f"{folder}:{path}", peer.stem]


def by_haskell(peer):
    return [built(peer, lambda target: f"ghc -O0 -threaded -outputdir {target}.parts -o {target} {peer.file}")]


BUILDERS = {
    "py": by_interpreter("/usr/bin/python3"),
    "js": by_interpreter("/usr/bin/node"),
    "pl": by_interpreter("/usr/bin/perl"),
    "rb": by_interpreter("/usr/bin/ruby"),
    "lua": by_interpreter("/usr/bin/lua5.1"),
    "c": by_compiler("gcc -O1 -pthread"),
    "cpp": by_compiler("g++ -std=c++17 -O1 -pthread -fPIC"),
    "go": by_go,
    "java": by_java,
    "hs": by_haskell,
}
LOW_LEVEL = "A low-level library: the program uses it as its documentation's example does."
SILENT = LOW_LEVEL + " It answers neither pings nor a Close itself; the program does."
JETTY = ":".join(f"/usr/share/java/{name}.jar" for name in (
    "jetty9-server", "jetty9-servlet", "jetty9-security", "jetty9-http", "jetty9-io", "jetty9-util", "jetty9-client",
    "jetty9-xml",
    "jetty9-websocket-api", "jetty9-websocket-common", "jetty9-websocket-client", "jetty9-websocket-server",
    "jetty9-websocket-servlet", "servlet-api"))
TOMCAT = ":".join(f"/usr/share/java/tomcat10-{name}.jar" for name in (
    "embed-core", "embed-websocket", "embed-el", "annotations-api"))

PEERS = [
    Peer("websockets", "python_websockets.py", "python3-websockets"),
    Peer("websockets without a limit", "python_websockets.py", "python3-websockets", words=("unlimited",),
         of="websockets", set="`max_size=None`"),
    Peer("wsproto", "python_wsproto.py", "python3-wsproto", note=LOW_LEVEL),
    Peer("aiohttp", "python_aiohttp.py", "python3-aiohttp"),
    Peer("aiohttp without a limit", "python_aiohttp.py", "python3-aiohttp", words=("unlimited",), of="aiohttp",
         set="`max_msg_size=0`"),
    Peer("Tornado", "python_tornado.py", "python3-tornado"),
    Peer("Autobahn", "python_autobahn.py", "python3-autobahn"),
    Peer("websocket-client", "python_websocket_client.py", "python3-websocket", roles=("client",),
         note="Read by `recv()`, which reports no Close's code."),
    Peer("websocket-client by recv_data()", "python_websocket_client.py", "python3-websocket", roles=("client",),
         words=("data",), of="websocket-client", set="read by `recv_data()`"),
    Peer("ws4py", "python_ws4py.py", "python3-ws4py"),
    Peer("gevent-websocket", "python_gevent_websocket.py", "python3-gevent-websocket", roles=("server",),
         note="Its Closes have no code, only a reason, and none is reported to its user: whether it accepts one can't "
         "be known."),
    Peer("ws", "node_ws.js", "node-ws"),
    Peer("websocket-driver (Node)", "node_websocket_driver.js", "node-websocket-driver", note=LOW_LEVEL),
    Peer("faye-websocket", "node_faye_websocket.js", "node-faye-websocket"),
    Peer("wslay", "c_wslay.c", "libwslay-dev libssl-dev", flags="-lwslay -lcrypto",
         note=LOW_LEVEL + " So the connection ends when `wslay_event_recv` fails, and a Close that is queued then isn't "
         "sent."),
    Peer("websocketpp", "cpp_websocketpp.cpp", "libwebsocketpp-dev libboost1.81-dev"),
    Peer("Boost.Beast", "cpp_beast.cpp", "libboost1.81-dev"),
    Peer("libwebsockets", "c_libwebsockets.c", "libwebsockets-dev", flags="-lwebsockets",
         note="It gives its user parts of messages; the program joins them."),
    Peer("libwebsockets with checked text", "c_libwebsockets.c", "libwebsockets-dev",
         flags="-DVALIDATE_UTF8 -lwebsockets", built_as="c_libwebsockets_utf8", of="libwebsockets",
         set="`LWS_SERVER_OPTION_VALIDATE_UTF8`"),
    Peer("libsoup 3", "c_libsoup.c", "libsoup-3.0-dev", flags="`pkg-config --cflags --libs libsoup-3.0`",
         built_as="libsoup3"),
    Peer("libsoup 3 without a limit", "c_libsoup.c", "libsoup-3.0-dev",
         flags="-DNO_LIMIT `pkg-config --cflags --libs libsoup-3.0`", built_as="libsoup3_no_limit", of="libsoup 3",
         set="`max_incoming_payload_size` 0"),
    Peer("libsoup 2.4", "c_libsoup.c", "libsoup2.4-dev", flags="`pkg-config --cflags --libs libsoup-2.4`",
         built_as="libsoup2"),
    Peer("Qt 5", "cpp_qt.cpp", "libqt5websockets5-dev", flags="`pkg-config --cflags --libs Qt5WebSockets`",
         built_as="qt5"),
    Peer("Qt 6", "cpp_qt.cpp", "qt6-websockets-dev", flags="`pkg-config --cflags --libs Qt6WebSockets`",
         built_as="qt6"),
    Peer("civetweb", "c_civetweb.c", "libcivetweb-dev", flags="-lcivetweb",
         note="It gives its user frames, and answers no ping itself; the program joins them, and answers."),
    Peer("Poco", "cpp_poco.cpp", "libpoco-dev", flags="-lPocoNet -lPocoFoundation",
         note=SILENT + " By its documentation an empty frame without flags means that the connection has ended."),
    Peer("gorilla/websocket", "go_gorilla.go", "golang-github-gorilla-websocket-dev golang-go",
         note="Its documentation leaves it to its user to check that text is UTF-8."),
    Peer("nhooyr.io/websocket", "go_nhooyr.go", "golang-nhooyr-websocket-dev golang-go"),
    Peer("nhooyr.io/websocket with a limit of 1 GiB", "go_nhooyr.go", "golang-nhooyr-websocket-dev golang-go",
         words=("unlimited",), of="nhooyr.io/websocket", set="`SetReadLimit(1 << 30)`"),
    Peer("x/net/websocket", "go_net.go", "golang-golang-x-net-dev golang-go",
         note="It gives its user each fragment as a message, and as server ends the connection at any Close."),
    Peer("websocket-driver (Ruby)", "ruby_websocket_driver.rb", "ruby-websocket-driver", note=LOW_LEVEL),
    Peer("websocket (Ruby)", "ruby_websocket.rb", "ruby-websocket", note=SILENT),
    Peer("em-websocket", "ruby_em_websocket.rb", "ruby-em-websocket", roles=("server",)),
    Peer("Mojolicious", "perl_mojolicious.pl", "libmojolicious-perl",
         note="As client it sends a second Close if its own is answered before it has ended the connection."),
    Peer("Protocol::WebSocket", "perl_protocol_websocket.pl", "libprotocol-websocket-perl", note=SILENT),
    Peer("Protocol::WebSocket without a limit", "perl_protocol_websocket.pl", "libprotocol-websocket-perl",
         words=("unlimited",), of="Protocol::WebSocket", set="`max_payload_size => 0`"),
    Peer("java.net.http", "JavaHttpClient.java", "openjdk-17-jdk-headless", roles=("client",), loses_close=True,
         note="It gives its user parts of messages; the program joins them. When it fails a connection, its Close "
         "comes in some sessions and not in others, so the code isn't compared."),
    Peer("Jetty", "JavaJetty.java", "libjetty9-java libjetty9-extra-java default-jdk-headless", flags=JETTY),
    Peer("Tomcat", "JavaTomcat.java", "libtomcat10-embed-java libtomcat10-java default-jdk-headless", flags=TOMCAT),
    Peer("Tomcat with buffers of 1 MiB", "JavaTomcat.java",
         "libtomcat10-embed-java libtomcat10-java default-jdk-headless", flags=TOMCAT, words=("unlimited",), of="Tomcat",
         set="`setDefaultMax..BufferSize(1 << 20)`"),
    Peer("websockets (Haskell)", "haskell_websockets.hs", "libghc-websockets-dev ghc"),
    Peer("websockets (Haskell) with checked text", "haskell_websockets.hs", "libghc-websockets-dev ghc",
         words=("strict",), of="websockets (Haskell)", set="`connectionStrictUnicode`",
         note="It makes no difference to a client."),
    Peer("lua-http", "lua_http.lua", "lua-http lua5.1", jobs=24,
         note="If a frame whose length has two bytes comes in parts, its `receive` raises an error, which the program "
         "doesn't catch: then it answers nothing and reports no end, and the connection stays until its memory is "
         "reclaimed, which the program prevents."),
    Peer("Chromium", "browser.py", "chromium", roles=("client",), words=("chromium",)),
    Peer("Firefox", "browser.py", "firefox-esr", roles=("client",), words=("firefox",),
         note="Its preferences allow 500 connections at once."),
]
NAMES = {peer.name: peer for peer in PEERS}


def other(role):
    return "client" if role == "server" else "server"
