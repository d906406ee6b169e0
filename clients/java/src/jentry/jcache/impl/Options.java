package jentry.jcache.impl;

import java.io.File;
import java.net.URI;
import java.util.ArrayList;
import java.util.List;
import java.util.Properties;
import java.util.Set;
import java.util.stream.Collectors;
import java.util.stream.Stream;
import javax.cache.CacheException;

/**
 * The settings from the URI and the properties of a manager. A property that the manager lacks is read from the system
 * properties, and then from the file of the class path.
 */
public final class Options {
    private static final String CHILD = "jentry", UNIX = "jentry+unix", TCP = "jentry+tcp";
    private static final String REDIS = "jentry+redis", REDIS_TLS = "jentry+rediss";
    private static final String FORMS = "jentry:default, jentry:/PATH/OF/PROGRAM, jentry+unix:/PATH, "
        + "jentry+tcp://HOST:PORT, jentry+redis://HOST:PORT[,HOST:PORT ..][/NAME] or the same with jentry+rediss";
    private static final String PREFIX = "jentry.";
    private static final Set<String> OF_A_CHILD = Set.of("jentry.program", "jentry.workers", "jentry.stripes");
    private static final Set<String> OF_REDIS = Set.of("jentry.events", "jentry.near", "jentry.user",
        "jentry.password");
    private static final Set<String> OF_ALL = Set.of("jentry.timeout", "jentry.queue", "jentry.local",
        "jentry.compile");
    private static final Set<String> IN_A_FILE = Stream.of(OF_A_CHILD, OF_REDIS, OF_ALL, Set.of("jentry.uri"))
        .flatMap(Set::stream).collect(Collectors.toSet());
    private static final int STREAM_TIMEOUT_MILLIS = 120_000, REDIS_TIMEOUT_MILLIS = 10_000;
    private static final int QUEUE = 65_536;
    private static final int REDIS_PORT = 6_379;

    /** Which events the listeners of a cache receive. */
    public enum Events {
        /** Those of the changes that this cache object makes. */
        LOCAL,
        /** Those of LOCAL, and the expiries that Redis reports. */
        EXPIRED,
        /** Those that Redis reports, whichever client made the change. */
        SERVER
    }

    private final URI uri;
    private final Properties properties;
    private final Properties file;
    private final int timeoutMillis;
    private final int queue;
    private final int near;
    private final boolean isLocal;
    private final boolean isCompiling;
    private final Events events;

    /**
     * Parses the URI and the properties.
     *
     * @throws CacheException if the URI is malformed, or a property is unknown, doesn't apply to this kind of server or
     *     has an invalid value
     */
    public Options(URI uri, Properties properties) {
        this(uri, properties, new Properties());
    }

    /**
     * Parses the URI and the properties.
     *
     * @param file the properties of {@link PropertiesFile}, which come last. Those that don't apply to this kind of
     *     server are ignored.
     * @throws CacheException if the URI is malformed, or a property is unknown, doesn't apply to this kind of server or
     *     has an invalid value
     */
    public Options(URI uri, Properties properties, Properties file) {
        this.uri = uri;
        this.properties = properties;
        this.file = file;
        if (!isKnown()) {
            throw new CacheException(uri + ": a URI is " + FORMS);
        }
        for (String name : properties.stringPropertyNames()) {
            if (name.startsWith(PREFIX) && !isProperty(name)) {
                throw new CacheException("the property " + name + " isn't one of " + uri);
            }
        }
        for (String name : file.stringPropertyNames()) {
            if (name.startsWith(PREFIX) && !IN_A_FILE.contains(name)) {
                throw new CacheException("the property " + name + " of " + PropertiesFile.NAME + " isn't known");
            }
        }
        timeoutMillis = number("jentry.timeout", isRedis() ? REDIS_TIMEOUT_MILLIS : STREAM_TIMEOUT_MILLIS, 0,
            Integer.MAX_VALUE);
        queue = number("jentry.queue", QUEUE, 1, Integer.MAX_VALUE);
        near = number("jentry.near", 0, 0, Integer.MAX_VALUE);
        number("jentry.workers", 1, 0, 16);
        number("jentry.stripes", 1, 1, 64);
        isLocal = one("jentry.local", "false", "true") == 1;
        isCompiling = one("jentry.compile", "true", "false") == 0;
        events = isRedis() ? Events.values()[one("jentry.events", "local", "expired", "server")] : Events.LOCAL;
    }

    private boolean isProperty(String name) {
        return OF_ALL.contains(name) || isChild() && OF_A_CHILD.contains(name) || isRedis() && OF_REDIS.contains(name);
    }

    private boolean isChild() {
        return CHILD.equals(uri.getScheme());
    }

    /** Returns whether the server is Redis or Redis Cluster. */
    public boolean isRedis() {
        return REDIS.equals(uri.getScheme()) || isTls();
    }

    /** Returns whether connections use TLS. */
    public boolean isTls() {
        return REDIS_TLS.equals(uri.getScheme());
    }

    /** Returns whether the server has a unix socket. */
    public boolean isUnix() {
        return UNIX.equals(uri.getScheme());
    }

    /** Returns whether the server has a TCP port and speaks the protocol of {@code jentry serve}. */
    public boolean isTcp() {
        return TCP.equals(uri.getScheme());
    }

    /** Returns whether the server is a front, which other programs share. */
    public boolean isFront() {
        return isUnix() || isTcp();
    }

    private boolean isKnown() {
        String path = uri.getSchemeSpecificPart();
        if (isChild()) {
            return path.equals("default") || path.startsWith(File.separator);
        } else if (isUnix()) {
            return path.startsWith(File.separator);
        } else if (isRedis()) {
            return isRedisAuthority(uri.getRawAuthority()) && uri.getQuery() == null && uri.getFragment() == null;
        }
        return isTcp() && uri.getHost() != null && uri.getPort() > 0;
    }

    private static boolean isRedisAuthority(String authority) {
        if (authority != null && authority.indexOf('@') >= 0) {
            throw new CacheException("a user and a password aren't written into the URI of Redis: "
                + "set the properties jentry.user and jentry.password");
        }
        return authority != null && authority.matches("[^,:]+(:\\d{1,5})?(,[^,:]+(:\\d{1,5})?)*");
    }

    private int number(String name, int otherwise, int least, int most) {
        String text = text(name);
        if (text == null) {
            return otherwise;
        }
        try {
            int number = Integer.parseInt(text);
            if (number >= least && number <= most) {
                return number;
            }
        } catch (NumberFormatException e) {
            // The exception below reports a number out of range.
        }
        throw new CacheException(
            "the property " + name + " is a number from " + least + " to " + most + ", not " + text);
    }

    private int one(String name, String... values) {
        String text = text(name);
        int at = text == null ? 0 : List.of(values).indexOf(text);
        if (at < 0) {
            throw new CacheException(
                "the property " + name + " is one of " + String.join(", ", values) + ", not " + text);
        }
        return at;
    }

    /** Returns a property, or null. */
    public String text(String name) {
        return properties.getProperty(name, System.getProperty(name, file.getProperty(name)));
    }

    /** Returns the address of the server. */
    public URI uri() {
        return uri;
    }

    /** Returns the timeout of a reply in milliseconds; 0 means none. */
    public int timeoutMillis() {
        return timeoutMillis;
    }

    /** Returns the maximum number of waiting calls. */
    public int queue() {
        return queue;
    }

    /** Returns how many values of each cache in Redis this JVM keeps at most; 0 means that it keeps none. */
    public int near() {
        return near;
    }

    /** Returns whether a processor that the server can't run runs in this JVM. */
    public boolean isLocal() {
        return isLocal;
    }

    /** Returns whether processors are compiled before they are sent, if the compiler is on the class path. */
    public boolean isCompiling() {
        return isCompiling;
    }

    /** Returns which events listeners receive. */
    public Events events() {
        return events;
    }

    /** Returns the Redis nodes that the URI names, each as HOST:PORT. */
    public List<String> nodes() {
        List<String> nodes = new ArrayList<>();
        for (String node : uri.getRawAuthority().split(",")) {
            nodes.add(node.indexOf(':') > 0 ? node : node + ":" + REDIS_PORT);
        }
        return nodes;
    }

    /** Returns the prefix of a cache's keys in Redis. */
    public String prefix(String cache) {
        String path = uri.getPath().replaceFirst("^/", "");
        return (path.isEmpty() ? "" : path + ":") + cache + ":";
    }

    /** Returns the command line of a child process. */
    public List<String> command() {
        List<String> command = new ArrayList<>(List.of(program(), "serve"));
        for (String name : List.of("workers", "stripes")) {
            String value = text(PREFIX + name);
            if (value != null) {
                command.addAll(List.of("--" + name, value));
            }
        }
        return command;
    }

    private String program() {
        String path = uri.getSchemeSpecificPart();
        if (path.startsWith(File.separator)) {
            return path;
        }
        String program = text("jentry.program");
        return program == null ? "jentry" : program;
    }
}
