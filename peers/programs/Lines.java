// The line protocol of the programs in Java, and what each peer sends of its own (see ../README.md).
import java.io.BufferedReader;
import java.io.IOException;
import java.io.InputStreamReader;
import java.nio.charset.StandardCharsets;
import java.util.List;
import java.util.function.BiConsumer;

class Lines {
    static final byte[] BINARY = {0, 1, (byte) 254, (byte) 255};

    static synchronized void line(String... words) {
        System.out.println(String.join(" ", words));
        System.out.flush();
    }

    static List<String> texts(String name) {
        if (name.startsWith("long"))
            return List.of("a".repeat(65535), "a".repeat(65536));
        return isShort(name) ? List.of("", "Hello", "a".repeat(125), "a".repeat(126)) : List.of();
    }

    static boolean isShort(String name) {
        return name.startsWith("short");
    }

    static void text(String name, CharSequence text) {
        message(name, "text", text.toString().getBytes(StandardCharsets.UTF_8));
    }

    static void message(String name, String kind, byte[] data) {
        StringBuilder hex = new StringBuilder();
        for (byte one : data)
            hex.append(Character.forDigit(one >> 4 & 15, 16)).append(Character.forDigit(one & 15, 16));
        line(name, kind, hex.toString());
    }

    static void closed(String name, int code) {
        line(name, "closed", code == 0 ? "-" : String.valueOf(code));
    }

    // Calls `connect` with each URL that comes, and its last part.
    static void urls(BiConsumer<String, String> connect) throws IOException {
        line("ready");
        BufferedReader urls = new BufferedReader(new InputStreamReader(System.in));
        for (String url; (url = urls.readLine()) != null;)
            connect.accept(url, url.substring(url.lastIndexOf('/') + 1));
    }
}
