package jentry.compiler;

import java.io.IOException;
import java.io.InputStream;

/** The other classes of a program, as far as a processor needs them: their class files, and the classes themselves for the values of static fields. */
public final class ProgramClasses {
    /** No other classes. */
    public static final ProgramClasses NONE = new ProgramClasses(null, false);

    private final ClassLoader loader;
    private final boolean isRunning;

    private ProgramClasses(ClassLoader loader, boolean isRunning) {
        this.loader = loader;
        this.isRunning = isRunning;
    }

    /**
     * Returns the classes that a loader finds.
     *
     * @param isRunning whether they are the classes of the running program, whose initialisers may run. The others are initialised only if that has no
     *     effect but to set their own fields.
     */
    public static ProgramClasses of(ClassLoader loader, boolean isRunning) {
        return new ProgramClasses(loader, isRunning);
    }

    /** Returns whether a class belongs to Java or to JCache, by its internal name. Such a class is never copied. */
    public static boolean isOfPlatform(String name) {
        return name.startsWith("java/") || name.startsWith("javax/") || name.startsWith("jdk/") || name.startsWith("sun/") || name.startsWith("[");
    }

    /** Returns whether the classes are those of the running program. */
    public boolean isRunning() {
        return isRunning;
    }

    /** Returns a class file by the internal name of the class, or null if there is none or the class belongs to Java. */
    public byte[] find(String name) {
        if (loader == null || isOfPlatform(name)) {
            return null;
        }
        try (InputStream in = loader.getResourceAsStream(name + ".class")) {
            return in == null ? null : in.readAllBytes();
        } catch (IOException e) {
            return null;
        }
    }

    /** Returns a class by its internal name, or null if it can't be loaded. */
    public Class<?> load(String name) {
        try {
            return Class.forName(name.replace('/', '.'), false, loader);
        } catch (ClassNotFoundException | LinkageError e) {
            return null;
        }
    }
}
