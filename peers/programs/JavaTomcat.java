// Tomcat: an endpoint of its embedded server, and its client; both by the Jakarta WebSocket API.
import jakarta.websocket.ClientEndpointConfig;
import jakarta.websocket.CloseReason;
import jakarta.websocket.ContainerProvider;
import jakarta.websocket.Endpoint;
import jakarta.websocket.EndpointConfig;
import jakarta.websocket.MessageHandler;
import jakarta.websocket.Session;
import jakarta.websocket.WebSocketContainer;
import jakarta.websocket.server.ServerContainer;
import jakarta.websocket.server.ServerEndpointConfig;
import java.net.URI;
import java.nio.ByteBuffer;
import org.apache.catalina.Context;
import org.apache.catalina.startup.Tomcat;
import org.apache.tomcat.websocket.server.WsSci;

public class JavaTomcat {
    public static class Talk extends Endpoint {
        private String name;

        public Talk() {
        }

        Talk(String name) {
            this.name = name;
        }

        @Override
        public void onOpen(Session session, EndpointConfig configuration) {
            if (name == null)
                name = session.getRequestURI().getPath().substring(1);
            session.addMessageHandler(String.class, (MessageHandler.Whole<String>) text -> Lines.text(name, text));
            session.addMessageHandler(byte[].class,
                (MessageHandler.Whole<byte[]>) data -> Lines.message(name, "binary", data));
            if (!Lines.texts(name).isEmpty())
                new Thread(() -> say(session)).start();
        }

        private void say(Session session) {
            try {
                for (String text : Lines.texts(name))
                    session.getBasicRemote().sendText(text);
                if (Lines.isShort(name)) {
                    session.getBasicRemote().sendBinary(ByteBuffer.wrap(Lines.BINARY));
                    session.getBasicRemote().sendPing(ByteBuffer.wrap("p".getBytes()));
                    session.getBasicRemote().sendText("Hel", false);
                    session.getBasicRemote().sendText("lo", true);
                }
                session.close(new CloseReason(CloseReason.CloseCodes.NORMAL_CLOSURE, "bye"));
            } catch (java.io.IOException error) {
                System.err.println(error);
            }
        }

        @Override
        public void onClose(Session session, CloseReason reason) {
            Lines.closed(name, reason.getCloseCode().getCode());
        }

        @Override
        public void onError(Session session, Throwable error) {
        }
    }

    // With the word `unlimited` before the role.
    static boolean isUnlimited;

    static void limit(WebSocketContainer container) {
        if (!isUnlimited)
            return;
        container.setDefaultMaxTextMessageBufferSize(1 << 20);
        container.setDefaultMaxBinaryMessageBufferSize(1 << 20);
    }

    static void serve(int port) throws Exception {
        Tomcat tomcat = new Tomcat();
        tomcat.setBaseDir(System.getProperty("java.io.tmpdir") + "/peers-tomcat");
        tomcat.setHostname("127.0.0.1");
        tomcat.setPort(port);
        tomcat.getConnector().setProperty("address", "127.0.0.1");
        Context context = tomcat.addContext("", null);
        context.addServletContainerInitializer(new WsSci(), null);
        Tomcat.addServlet(context, "default", new org.apache.catalina.servlets.DefaultServlet());
        context.addServletMappingDecoded("/", "default");
        tomcat.start();
        ServerContainer container = (ServerContainer) context.getServletContext().getAttribute(ServerContainer.class.getName());
        limit(container);
        container.addEndpoint(ServerEndpointConfig.Builder.create(Talk.class, "/{name}").build());
        Lines.line("ready");
        tomcat.getServer().await();
    }

    public static void main(String[] words) throws Exception {
        java.util.logging.LogManager.getLogManager().reset();
        isUnlimited = words[0].equals("unlimited");
        if (isUnlimited)
            words = java.util.Arrays.copyOfRange(words, 1, words.length);
        if (words[0].equals("server")) {
            serve(Integer.parseInt(words[1]));
            return;
        }
        WebSocketContainer container = ContainerProvider.getWebSocketContainer();
        limit(container);
        Lines.urls((url, name) -> new Thread(() -> {
            try {
                container.connectToServer(new Talk(name), ClientEndpointConfig.Builder.create().build(), URI.create(url));
            } catch (Exception error) {
                System.err.println(error);
            }
        }).start());
    }
}
