import java.io.IOException;
import java.io.OutputStreamWriter;
import java.io.StringWriter;
import java.io.UncheckedIOException;
import java.io.Writer;
import java.nio.charset.StandardCharsets;
import java.util.HashMap;
import java.util.List;
import java.util.Map;
import java.util.Random;

/**
 * What the recorder refuses, and four threads that call a map with one lock: {@code java RecorderTest > run.history && abd justify
 * run.history}.
 *
 * <p>One call in twenty gets no answer: it may have taken effect, and its thread goes on as a new client.
 */
public final class RecorderTest {
    private record Pair(long number, int writer, String value) {}

    private interface Call {
        void run() throws IOException;
    }

    private static final Map<String, Pair> PAIRS = new HashMap<>();

    /** Each refusal, at the call that makes it; nothing is written then. */
    private static void refusals() throws IOException {
        StringWriter file = new StringWriter();
        Recorder log = new Recorder(file);
        int read = log.invokeRead(7, "x");
        int write = log.invokeWrite(65_535, "Aa0._-", "é".repeat(128));
        log.note(write, 1_000_001, 65_535);
        String written = file.toString();
        String wrongKey = " should be 1 to 64 letters, digits, '.', '_' or '-'";
        refused(() -> log.invokeRead(0, "x"), "client 0 should be a number from 1 to 65535");
        refused(() -> log.invokeRead(65_536, "x"), "client 65536 should be a number from 1 to 65535");
        refused(() -> log.invokeRead(7, "x"), "client 7 has call 0 pending: after a call without an answer take a new client");
        refused(() -> log.invokeRead(1, "user:17"), "key \"user:17\"" + wrongKey);
        refused(() -> log.invokeRead(1, ""), "key \"\"" + wrongKey);
        refused(() -> log.invokeRead(1, "x\n"), "key \"x\\u000a\"" + wrongKey);
        refused(() -> log.invokeRead(1, "x".repeat(65)), "key \"" + "x".repeat(65) + "\"" + wrongKey);
        refused(() -> log.invokeWrite(1, "x", "é".repeat(128) + "e"), "a value has 257 bytes, and should have at most 256");
        refused(() -> log.invokeWrite(1, "x", "\ud800"), "a value has half a character");
        refused(() -> log.respondWrite(read), "call 0 is a read, not a write");
        refused(() -> log.respondRead(write, null), "call 1 is a write, not a read");
        refused(() -> log.respondWrite(2), "call 2 isn't pending");
        refused(() -> log.note(write, 1, 1), "call 1 has a note");
        refused(() -> log.note(read, -1, 1), "number -1 should be 0 or more");
        refused(() -> log.note(read, 1, 65_536), "writer 65536 should be a number from 0 to 65535");
        refused(log::newClient, "client 65536 should be a number from 1 to 65535");
        require(file.toString().equals(written), "a refused call was written");
        log.respondRead(read, null);
        refused(() -> log.respondRead(read, null), "call 0 isn't pending");
    }

    private static void mostCalls() throws IOException {
        Recorder log = new Recorder(Writer.nullWriter());
        for (int i = 0; i < 1_000_000; i++) {
            log.respondWrite(log.invokeWrite(1, "x", ""));
        }
        refused(() -> log.invokeRead(1, "x"), "a history has at most 1,000,000 calls");
    }

    private static void names() {
        Recorder.Names keys = new Recorder.Names("k");
        require((keys.of("user:17") + keys.of("4") + keys.of("user:17")).equals("k0k1k0"), "the names");
        require(keys.lines().equals(List.of("k0 user:17", "k1 4")), "the lines of the names");
    }

    private static void refused(Call call, String words) throws IOException {
        try {
            call.run();
        } catch (IllegalArgumentException e) {
            require(e.getMessage().equals(words), e.getMessage() + ", not " + words);
            return;
        }
        throw new AssertionError("not refused: " + words);
    }

    private static void require(boolean isSo, String otherwise) {
        if (!isSo) {
            throw new AssertionError(otherwise);
        }
    }

    /** A thread's calls, each value once. */
    private static void calls(int number, Recorder recorder) {
        Random random = new Random();
        int client = recorder.newClient();
        try {
            for (int turn = 0; turn < 100; turn++) {
                String key = random.nextBoolean() ? "x" : "y";
                boolean isAnswered = random.nextInt(20) > 0;
                if (random.nextBoolean()) {
                    write(client, key, "\"" + number + "\"\t\\" + turn + " é", isAnswered, isAnswered || random.nextBoolean(), recorder);
                } else {
                    read(client, key, isAnswered, recorder);
                }
                client = isAnswered ? client : recorder.newClient();
            }
        } catch (IOException e) {
            throw new UncheckedIOException(e);
        }
    }

    private static void write(int client, String key, String value, boolean isAnswered, boolean isDone, Recorder recorder)
            throws IOException {
        int call = recorder.invokeWrite(client, key, value);
        if (isDone) {
            synchronized (PAIRS) {
                long number = PAIRS.getOrDefault(key, new Pair(0, 0, null)).number() + 1;
                recorder.note(call, number, client);
                PAIRS.put(key, new Pair(number, client, value));
            }
        }
        if (isAnswered) {
            recorder.respondWrite(call);
        }
    }

    private static void read(int client, String key, boolean isAnswered, Recorder recorder) throws IOException {
        int call = recorder.invokeRead(client, key);
        Pair pair;
        synchronized (PAIRS) {
            pair = PAIRS.getOrDefault(key, new Pair(0, 0, null));
        }
        recorder.note(call, pair.number(), pair.writer());
        if (isAnswered) {
            recorder.respondRead(call, pair.value());
        }
    }

    public static void main(String[] words) throws Exception {
        Thread.setDefaultUncaughtExceptionHandler((thread, e) -> {
            e.printStackTrace();
            System.exit(1);
        });
        refusals();
        mostCalls();
        names();
        Recorder recorder = new Recorder(new OutputStreamWriter(System.out, StandardCharsets.UTF_8));
        Thread[] threads = new Thread[4];
        for (int i = 0; i < threads.length; i++) {
            int number = i + 1;
            threads[i] = new Thread(() -> calls(number, recorder));
            threads[i].start();
        }
        for (Thread thread : threads) {
            thread.join();
        }
    }
}
