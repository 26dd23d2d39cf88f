import java.io.IOException;
import java.io.Writer;
import java.nio.charset.StandardCharsets;
import java.util.ArrayList;
import java.util.HashMap;
import java.util.LinkedHashMap;
import java.util.List;
import java.util.Map;

/**
 * A recorder for a store's test, to copy: it writes a history file for {@code abd}.
 *
 * <p>All threads of a run share one recorder. Its lock is the run's one clock: a call precedes another if its response was recorded
 * before the other's invocation. Each line is flushed, so what was recorded stays if the process dies. What {@code abd} would refuse is
 * refused here, at the call that makes it: an IllegalArgumentException says what is wrong, and nothing is written.
 */
public final class Recorder {
    private static final int CALLS = 1_000_000;
    private static final int CLIENTS = 65_535;
    private static final int VALUE_BYTES = 256;

    private final Writer file;
    private final Map<Integer, Pending> pending = new HashMap<>();
    private final Map<Integer, Integer> busy = new HashMap<>();
    private int calls = 0;
    private int lastClient = 0;

    /** A call without a response. */
    private static final class Pending {
        final int client;
        final String does;
        boolean isNoted = false;

        Pending(int client, String does) {
            this.client = client;
            this.does = does;
        }
    }

    /** The file has to be written as UTF-8. */
    public Recorder(Writer file) throws IOException {
        this.file = file;
        write("{\"abd\":\"history\",\"version\":1}");
    }

    /** A client's name that nobody has: for each thread, and for a thread whose last call got no answer. */
    public synchronized int newClient() {
        requireNumber("client", lastClient + 1, 1, CLIENTS);
        lastClient++;
        return lastClient;
    }

    /** Record this before the call's first message goes out. The number of the call. */
    public synchronized int invokeRead(int client, String key) throws IOException {
        return invoke(client, key, "read", "");
    }

    /** The same for a write. */
    public synchronized int invokeWrite(int client, String key, String value) throws IOException {
        requireValue(value);
        return invoke(client, key, "write", ",\"value\":" + quoted(value));
    }

    /** Only for a store with tags: the tag of a pending call. Numbers above 1,000,000 want rank_tags.py afterwards. */
    public synchronized void note(int call, long number, int writer) throws IOException {
        require(number >= 0, "number " + number + " should be 0 or more");
        requireNumber("writer", writer, 0, CLIENTS);
        Pending found = find(call);
        require(!found.isNoted, "call " + call + " has a note");
        found.isNoted = true;
        write("{\"call\":" + call + ",\"number\":" + number + ",\"row\":\"note\",\"writer\":" + writer + "}");
    }

    /** Record this after the answer has come, before the caller is told. The value is null if the key was absent. */
    public synchronized void respondRead(int call, String value) throws IOException {
        if (value != null) {
            requireValue(value);
        }
        respond(call, "read", ",\"value\":" + (value == null ? "null" : quoted(value)));
    }

    /** The same for a write. */
    public synchronized void respondWrite(int call) throws IOException {
        respond(call, "write", "");
    }

    private int invoke(int client, String key, String does, String value) throws IOException {
        requireNumber("client", client, 1, CLIENTS);
        require(key.matches("[A-Za-z0-9._-]{1,64}"), "key " + quoted(key) + " should be 1 to 64 letters, digits, '.', '_' or '-'");
        require(!busy.containsKey(client),
                "client " + client + " has call " + busy.get(client) + " pending: after a call without an answer take a new client");
        require(calls < CALLS, "a history has at most 1,000,000 calls");
        write("{\"call\":" + calls + ",\"client\":" + client + ",\"do\":\"" + does + "\",\"key\":" + quoted(key) + ",\"row\":\"invoke\""
                + value + "}");
        lastClient = Math.max(lastClient, client);
        pending.put(calls, new Pending(client, does));
        busy.put(client, calls);
        return calls++;
    }

    private void respond(int call, String does, String value) throws IOException {
        Pending found = find(call);
        require(found.does.equals(does), "call " + call + " is a " + found.does + ", not a " + does);
        write("{\"call\":" + call + ",\"row\":\"respond\"" + value + "}");
        pending.remove(call);
        busy.remove(found.client);
    }

    private Pending find(int call) {
        require(pending.containsKey(call), "call " + call + " isn't pending");
        return pending.get(call);
    }

    private void write(String row) throws IOException {
        file.write(row + "\n");
        file.flush();
    }

    private static void requireNumber(String what, int number, int least, int most) {
        require(least <= number && number <= most, what + " " + number + " should be a number from " + least + " to " + most);
    }

    private static void requireValue(String value) {
        require(StandardCharsets.UTF_8.newEncoder().canEncode(value), "a value has half a character");
        int size = value.getBytes(StandardCharsets.UTF_8).length;
        require(size <= VALUE_BYTES, "a value has " + size + " bytes, and should have at most " + VALUE_BYTES);
    }

    private static void require(boolean isSo, String otherwise) {
        if (!isSo) {
            throw new IllegalArgumentException(otherwise);
        }
    }

    private static String quoted(String text) {
        StringBuilder out = new StringBuilder("\"");
        for (char c : text.toCharArray()) {
            out.append(c == '"' || c == '\\' ? "\\" + c : c < ' ' ? String.format("\\u%04x", (int) c) : c);
        }
        return out.append('"').toString();
    }

    /** Names for keys or values that no history takes: with the prefix "k", {@code of("user:17")} is "k0", and the same each time. */
    public static final class Names {
        private final Map<String, String> names = new LinkedHashMap<>();
        private final String prefix;

        public Names(String prefix) {
            this.prefix = prefix;
        }

        /** The name of a key or a value. */
        public synchronized String of(String text) {
            return names.computeIfAbsent(text, it -> prefix + names.size());
        }

        /** Each name and what it stands for: to print after the run. */
        public synchronized List<String> lines() {
            List<String> lines = new ArrayList<>();
            names.forEach((text, name) -> lines.add(name + " " + text));
            return lines;
        }
    }
}
