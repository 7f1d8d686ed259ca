// java.net.http.WebSocket, the JDK's client. It passes parts of messages to its user; the program joins them.
import java.io.ByteArrayOutputStream;
import java.net.URI;
import java.net.http.HttpClient;
import java.net.http.WebSocket;
import java.nio.ByteBuffer;
import java.util.concurrent.CompletionStage;

class JavaHttpClient implements WebSocket.Listener {
    private static final HttpClient CLIENT = HttpClient.newHttpClient();
    private final String name;
    private final StringBuilder text = new StringBuilder();
    private final ByteArrayOutputStream binary = new ByteArrayOutputStream();

    JavaHttpClient(String name) {
        this.name = name;
    }

    @Override
    public void onOpen(WebSocket socket) {
        new Thread(() -> say(socket)).start();
        socket.request(1);
    }

    private void say(WebSocket socket) {
        for (String one : Lines.texts(name))
            socket.sendText(one, true).join();
        if (Lines.isShort(name)) {
            socket.sendBinary(ByteBuffer.wrap(Lines.BINARY), true).join();
            socket.sendPing(ByteBuffer.wrap("p".getBytes())).join();
            socket.sendText("Hel", false).join();
            socket.sendText("lo", true).join();
        }
        if (!Lines.texts(name).isEmpty())
            socket.sendClose(1000, "bye").join();
    }

    @Override
    public CompletionStage<?> onText(WebSocket socket, CharSequence part, boolean isLast) {
        text.append(part);
        if (isLast) {
            Lines.text(name, text);
            text.setLength(0);
        }
        socket.request(1);
        return null;
    }

    @Override
    public CompletionStage<?> onBinary(WebSocket socket, ByteBuffer part, boolean isLast) {
        byte[] bytes = new byte[part.remaining()];
        part.get(bytes);
        binary.writeBytes(bytes);
        if (isLast) {
            Lines.message(name, "binary", binary.toByteArray());
            binary.reset();
        }
        socket.request(1);
        return null;
    }

    @Override
    public CompletionStage<?> onClose(WebSocket socket, int code, String reason) {
        Lines.closed(name, code);
        return null;
    }

    @Override
    public void onError(WebSocket socket, Throwable error) {
        Lines.closed(name, 0);
    }

    public static void main(String[] words) throws Exception {
        Lines.urls((url, name) -> CLIENT.newWebSocketBuilder().buildAsync(URI.create(url), new JavaHttpClient(name)));
    }
}
