package jentry.jcache;

import java.io.IOException;
import java.io.UncheckedIOException;
import java.nio.file.Files;
import java.nio.file.Path;
import java.util.ArrayList;
import java.util.Collections;
import java.util.Comparator;
import java.util.List;
import java.util.stream.Stream;

/** Temporary folders for tests, which are deleted when the JVM ends. */
public final class Temporary {
    private static final List<Path> ALL = Collections.synchronizedList(new ArrayList<>());

    static {
        Runtime.getRuntime().addShutdownHook(new Thread(() -> List.copyOf(ALL).forEach(Temporary::delete)));
    }

    private Temporary() { }

    /** Creates a folder. */
    public static Path folder() {
        try {
            Path folder = Files.createTempDirectory("jentry");
            ALL.add(folder);
            return folder;
        } catch (IOException e) {
            throw new UncheckedIOException(e);
        }
    }

    /** Removes a folder from the list after it was deleted. */
    public static void forget(Path folder) {
        ALL.remove(folder);
    }

    /** Deletes a folder and its contents. */
    public static void delete(Path folder) {
        try (Stream<Path> all = Files.walk(folder)) {
            for (Path it : all.sorted(Comparator.reverseOrder()).toList()) {
                Files.delete(it);
            }
        } catch (IOException e) {
            throw new UncheckedIOException(e);
        }
    }
}
