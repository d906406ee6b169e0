package jentry.compiler.cli;

import java.nio.file.Path;
import java.util.ArrayList;
import java.util.List;

/** The command line options. */
final class Options {
    /** Thrown if the command line is invalid. */
    static final class UsageException extends Exception {
        private static final long serialVersionUID = 1L;

        UsageException(String why) {
            super(why);
        }
    }

    private static final int CALLS = 10_000;

    final List<Path> inputs = new ArrayList<>();
    Path output;
    String classPath = "";
    String program = System.getenv().getOrDefault("JENTRY_PROGRAM", "jentry");
    boolean isHelp;
    boolean isVersion;
    boolean explains;
    boolean isVerbatim;
    boolean checks;
    int calls;
    long seed = 1;

    Options(String[] words) throws UsageException {
        for (int i = 0; i < words.length; i++) {
            String word = words[i];
            int equals = word.startsWith("--") ? word.indexOf('=') : -1;
            String name = equals < 0 ? word : word.substring(0, equals);
            String value = equals < 0 ? null : word.substring(equals + 1);
            if (takesValue(name) && value == null) {
                value = ++i < words.length ? words[i] : missing(name);
            } else if (value != null && !takesValue(name) && !name.equals("--compare")) {
                throw new UsageException("the option " + name + " takes no value");
            }
            option(name, value);
        }
        if (!isHelp && !isVersion) {
            complete();
        }
    }

    private static boolean takesValue(String name) {
        return List.of("-d", "--classpath", "--program", "--seed").contains(name);
    }

    private static String missing(String name) throws UsageException {
        throw new UsageException("the option " + name + " lacks its value");
    }

    private void option(String name, String value) throws UsageException {
        switch (name) {
            case "-d" -> output = Path.of(value);
            case "--classpath" -> classPath = value;
            case "--program" -> program = value;
            case "--seed" -> seed = number(name, value, Long.MIN_VALUE);
            case "--compare" -> calls = value == null ? CALLS : (int) Math.min(Integer.MAX_VALUE, number(name, value, 1));
            case "--check" -> checks = true;
            case "--explain" -> explains = true;
            case "--verbatim" -> isVerbatim = true;
            case "--help", "-h" -> isHelp = true;
            case "--version" -> isVersion = true;
            default -> {
                if (name.startsWith("-")) {
                    throw new UsageException("there is no option " + name);
                }
                inputs.add(Path.of(name));
            }
        }
    }

    private static long number(String name, String value, long least) throws UsageException {
        try {
            long number = Long.parseLong(value);
            if (number >= least) {
                return number;
            }
        } catch (NumberFormatException e) {
            // Reported below, like a number that is too small.
        }
        throw new UsageException("the option " + name + " takes a number" + (least > 0 ? " from " + least : "") + ", not " + value);
    }

    private void complete() throws UsageException {
        if (inputs.isEmpty()) {
            throw new UsageException("name a class file, a folder or a jar");
        } else if (output == null) {
            throw new UsageException("name the folder for what is compiled, by -d");
        }
    }
}
