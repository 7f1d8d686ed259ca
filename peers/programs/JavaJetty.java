// Jetty: its WebSocketServlet in an embedded server, and its WebSocketClient.
import java.net.URI;
import java.nio.ByteBuffer;
import org.eclipse.jetty.server.Server;
import org.eclipse.jetty.server.ServerConnector;
import org.eclipse.jetty.servlet.ServletContextHandler;
import org.eclipse.jetty.servlet.ServletHolder;
import org.eclipse.jetty.websocket.api.Session;
import org.eclipse.jetty.websocket.api.WebSocketAdapter;
import org.eclipse.jetty.websocket.client.WebSocketClient;
import org.eclipse.jetty.websocket.servlet.WebSocketServlet;
import org.eclipse.jetty.websocket.servlet.WebSocketServletFactory;

public class JavaJetty {
    public static class Talk extends WebSocketAdapter {
        private final String name;

        Talk(String name) {
            this.name = name;
        }

        @Override
        public void onWebSocketConnect(Session session) {
            super.onWebSocketConnect(session);
            if (!Lines.texts(name).isEmpty())
                new Thread(() -> say(session)).start();
        }

        private void say(Session session) {
            try {
                for (String text : Lines.texts(name))
                    getRemote().sendString(text);
                if (Lines.isShort(name)) {
                    getRemote().sendBytes(ByteBuffer.wrap(Lines.BINARY));
                    getRemote().sendPing(ByteBuffer.wrap("p".getBytes()));
                    getRemote().sendPartialString("Hel", false);
                    getRemote().sendPartialString("lo", true);
                }
            } catch (java.io.IOException error) {
                System.err.println(error);
            }
            session.close(1000, "bye");
        }

        @Override
        public void onWebSocketText(String text) {
            Lines.text(name, text);
        }

        @Override
        public void onWebSocketBinary(byte[] data, int start, int size) {
            Lines.message(name, "binary", java.util.Arrays.copyOfRange(data, start, start + size));
        }

        @Override
        public void onWebSocketClose(int code, String reason) {
            super.onWebSocketClose(code, reason);
            Lines.closed(name, code);
        }

        @Override
        public void onWebSocketError(Throwable error) {
        }
    }

    public static class Servlet extends WebSocketServlet {
        @Override
        public void configure(WebSocketServletFactory factory) {
            factory.setCreator((request, response) -> new Talk(request.getRequestPath().substring(1)));
        }
    }

    static void serve(int port) throws Exception {
        Server server = new Server();
        ServerConnector connector = new ServerConnector(server);
        connector.setHost("127.0.0.1");
        connector.setPort(port);
        server.addConnector(connector);
        ServletContextHandler handler = new ServletContextHandler();
        handler.addServlet(new ServletHolder(new Servlet()), "/*");
        server.setHandler(handler);
        server.start();
        Lines.line("ready");
        server.join();
    }

    public static void main(String[] words) throws Exception {
        if (words[0].equals("server")) {
            serve(Integer.parseInt(words[1]));
            return;
        }
        WebSocketClient client = new WebSocketClient();
        client.start();
        Lines.urls((url, name) -> {
            try {
                client.connect(new Talk(name), URI.create(url));
            } catch (java.io.IOException error) {
                System.err.println(error);
            }
        });
    }
}
