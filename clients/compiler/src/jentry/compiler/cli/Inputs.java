package jentry.compiler.cli;

import java.io.IOException;
import java.io.InputStream;
import java.nio.file.Files;
import java.nio.file.Path;
import java.util.ArrayList;
import java.util.List;
import java.util.stream.Stream;
import java.util.zip.ZipEntry;
import java.util.zip.ZipFile;
import org.objectweb.asm.ClassReader;

/** Finds the class files that a command line argument names. */
final class Inputs {
    /**
     * A class file.
     *
     * @param name the name in messages
     * @param file its path, or null if it is in a jar
     * @param bytes its content
     */
    record Input(String name, Path file, byte[] bytes) { }

    private Inputs() { }

    /** Returns the class files of a class file, a folder or a jar, sorted by name. */
    static List<Input> of(Path place) throws IOException {
        if (Files.isDirectory(place)) {
            return ofFolder(place);
        }
        String name = place.getFileName().toString();
        return name.endsWith(".jar") || name.endsWith(".zip") ? ofJar(place) : List.of(new Input(place.toString(), place, Files.readAllBytes(place)));
    }

    /** Returns the folder that a class path names to find a class file, or the file's own folder if it isn't there by its package. */
    static Path rootOf(Path file) {
        Path folder = file.toAbsolutePath().getParent();
        try {
            String name = new ClassReader(Files.readAllBytes(file)).getClassName();
            Path root = folder;
            for (int i = name.indexOf('/'); i >= 0 && root != null; i = name.indexOf('/', i + 1)) {
                root = root.getParent();
            }
            boolean isThere = root != null && Files.exists(root.resolve(name + ".class"));
            return isThere ? root : folder;
        } catch (IOException | RuntimeException e) {
            // reported when the file is compiled
            return folder;
        }
    }

    private static List<Input> ofFolder(Path folder) throws IOException {
        List<Path> files;
        try (Stream<Path> walk = Files.walk(folder)) {
            files = walk.filter(it -> it.toString().endsWith(".class") && Files.isRegularFile(it)).sorted().toList();
        }
        List<Input> inputs = new ArrayList<>();
        for (Path file : files) {
            inputs.add(new Input(file.toString(), file, Files.readAllBytes(file)));
        }
        return inputs;
    }

    private static List<Input> ofJar(Path jar) throws IOException {
        List<Input> inputs = new ArrayList<>();
        try (ZipFile file = new ZipFile(jar.toFile())) {
            List<? extends ZipEntry> entries = file.stream().filter(it -> it.getName().endsWith(".class") && !it.getName().startsWith("META-INF/"))
                .sorted(java.util.Comparator.comparing(ZipEntry::getName)).toList();
            for (ZipEntry entry : entries) {
                try (InputStream in = file.getInputStream(entry)) {
                    inputs.add(new Input(jar + "!/" + entry.getName(), null, in.readAllBytes()));
                }
            }
        }
        return inputs;
    }
}
