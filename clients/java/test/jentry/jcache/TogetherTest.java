package jentry.jcache;

import static org.junit.jupiter.api.Assertions.assertEquals;
import static org.junit.jupiter.api.Assumptions.assumeTrue;

import java.nio.file.Path;
import java.util.List;
import org.junit.jupiter.api.Test;

/** Tests the Java client, the Python client and the raw frames of the examples on one cache, if the server is a front on a unix socket. */
class TogetherTest extends OnServer {
    private static final String SCRIPT = """
        import socket, subprocess, sys
        place, key, clients, examples = sys.argv[1], int(sys.argv[2]), sys.argv[3], sys.argv[4]
        sys.path.insert(0, clients)
        sys.dont_write_bytecode = True
        import jentry

        def frames(text, *words):
            return subprocess.run([sys.executable, examples + "/frames.py", *words], input=text, stdout=subprocess.PIPE, check=True).stdout

        with jentry.Cache.connect(place) as cache:
            with open(examples + "/Plus.class", "rb") as file:
                plus = cache.define(file.read())
            for _ in range(200):
                cache.invoke(key, plus)
            print(cache.put_if_absent(key, 1), cache.get(key - 1))
        with socket.socket(socket.AF_UNIX) as line:
            line.connect(place)
            line.sendall(frames(f"get {key - 1}\\nput {key - 1} 43\\nend\\n".encode()))
            line.shutdown(socket.SHUT_WR)
            print(" ".join(frames(b"".join(iter(lambda: line.recv(65536), b"")), "--replies").decode().split()))
        """;

    @Test void onOneCache() throws Exception {
        assumeTrue(Server.AT.getScheme().equals("jentry+unix"));
        cache.put(k, 0L);
        cache.put(k - 1, 41L);
        Path examples = Path.of(System.getProperty("jentry.examples")), clients = examples.resolve("../../python");
        ProcessBuilder python = new ProcessBuilder("python3", "-c", SCRIPT, Server.AT.getSchemeSpecificPart(), Long.toString(k), clients.toString(),
            examples.resolve("../../../examples").toString());
        Process process = python.redirectErrorStream(true).start();
        Team.of(4, t -> {
            for (int i = 0; i < 50; i++) {
                cache.invoke(k, new Sample.Add(), 1L);
            }
        }).join();
        assertEquals(List.of("False 41", "value 41 done end"), process.inputReader().lines().toList());
        assertEquals(0, process.waitFor());
        assertEquals(400L, cache.get(k));
        assertEquals(43L, cache.get(k - 1));
    }
}
