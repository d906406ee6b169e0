import java.io.IOException;
import java.io.InputStream;
import java.nio.file.Files;
import java.nio.file.Path;
import java.util.stream.Stream;
import java.util.zip.ZipEntry;
import java.util.zip.ZipInputStream;
import org.objectweb.asm.ClassReader;
import org.objectweb.asm.ClassWriter;
import org.objectweb.asm.commons.ClassRemapper;
import org.objectweb.asm.commons.Remapper;

/** Copies the classes of folders and jars into one folder, and moves ASM to a package of the compiler: a program may use another ASM. */
public final class Relocate {
    private static final String FROM = "org/objectweb/asm/";
    private static final String TO = "jentry/compiler/asm/";

    private final Path out;

    private Relocate(Path out) {
        this.out = out;
    }

    public static void main(String[] words) throws IOException {
        Relocate relocate = new Relocate(Path.of(words[0]));
        for (int i = 1; i < words.length; i++) {
            Path place = Path.of(words[i]);
            if (Files.isDirectory(place)) {
                relocate.copyFolder(place);
            } else {
                relocate.copyJar(place);
            }
        }
    }

    private void copyFolder(Path folder) throws IOException {
        try (Stream<Path> walk = Files.walk(folder)) {
            for (Path file : walk.filter(Files::isRegularFile).toList()) {
                copy(folder.relativize(file).toString(), Files.readAllBytes(file));
            }
        }
    }

    private void copyJar(Path jar) throws IOException {
        try (InputStream in = Files.newInputStream(jar); ZipInputStream zip = new ZipInputStream(in)) {
            for (ZipEntry entry = zip.getNextEntry(); entry != null; entry = zip.getNextEntry()) {
                if (entry.getName().endsWith(".class") && !entry.getName().equals("module-info.class")) {
                    copy(entry.getName(), zip.readAllBytes());
                }
            }
        }
    }

    private void copy(String name, byte[] bytes) throws IOException {
        // the stubs and the library methods, which are copied into processors, don't refer to ASM
        boolean remaps = name.endsWith(".class") && !name.startsWith("jentry/compiler/api/") && !name.startsWith("jentry/compiler/library/");
        Path file = out.resolve(moved(name));
        Files.createDirectories(file.getParent());
        Files.write(file, remaps ? remapped(bytes) : bytes);
    }

    private static String moved(String name) {
        return name.startsWith(FROM) ? TO + name.substring(FROM.length()) : name;
    }

    private static byte[] remapped(byte[] bytes) {
        ClassWriter writer = new ClassWriter(0);
        Remapper remapper = new Remapper() {
            @Override
            public String map(String name) {
                return moved(name);
            }
        };
        new ClassReader(bytes).accept(new ClassRemapper(writer, remapper), 0);
        return writer.toByteArray();
    }
}
