package jentry.jcache.stream;

import java.io.IOException;
import java.util.concurrent.CompletableFuture;
import java.util.function.Function;
import jentry.jcache.CallNotSentException;
import jentry.jcache.impl.ProcessorFile;

/**
 * The stream of a cache. When it has ended, the next call replaces it: a new child process, or a new connection to
 * the front. The call defines its class there again.
 */
final class Sessions {
    private static final System.Logger LOG = System.getLogger("jentry.jcache");

    private final Connector connector;
    private final String server;
    private final KnownKeys keys;
    private volatile Session current;
    private boolean closed;

    /** Opens a stream to the server. */
    interface Connector {
        /** Returns a new stream. */
        Line connect() throws IOException;
    }

    /**
     * Opens the first stream.
     *
     * @param server the address of the server, for messages
     * @param keys the keys that are gone with the server, or null if the server may live on
     */
    Sessions(Connector connector, String server, KnownKeys keys) throws IOException {
        this.connector = connector;
        this.server = server;
        this.keys = keys;
        current = new Session(connector.connect());
    }

    /** Returns the stream, a new one if the last one has ended. */
    Session current() {
        Session session = current;
        return session.line.isBroken() ? renewed(session) : session;
    }

    /** Makes a call. */
    <C extends Call> C make(Function<Session, C> maker) {
        return tried(session -> {
            C call = maker.apply(session);
            session.line.make(call);
            return call;
        });
    }

    /** Has the server judge a class. */
    void define(ProcessorFile file) {
        tried(session -> session.number(file));
    }

    /**
     * Starts a call that no thread waits for.
     *
     * @throws java.util.concurrent.RejectedExecutionException if too many calls are waiting
     */
    <T> CompletableFuture<T> hand(Function<Session, Calls.Async<T>> maker) {
        return tried(session -> {
            Calls.Async<T> call = maker.apply(session);
            session.line.hand(call);
            return call.future.exceptionallyCompose(e -> e instanceof CallNotSentException
                && session.line.hasEndedIdle() && !current().line.hasEndedIdle() ? hand(maker)
                : CompletableFuture.failedFuture(e));
        });
    }

    /**
     * Does some work on the stream. If nothing was sent because the stream was found to have ended while it was idle,
     * the work is done once more on a new one.
     */
    private <T> T tried(Function<Session, T> work) {
        Session session = current();
        try {
            return work.apply(session);
        } catch (CallNotSentException e) {
            if (!session.line.hasEndedIdle()) {
                throw e;
            }
            return work.apply(current());
        }
    }

    private synchronized Session renewed(Session broken) {
        if (closed) {
            throw new IllegalStateException("the cache is closed");
        } else if (current != broken) {
            return current;
        }
        String why = broken.line.end();
        try {
            Session made = new Session(connector.connect());
            if (keys != null) {
                keys.clear();
            }
            current = made;
        } catch (IOException e) {
            throw new CallNotSentException(why + ", and there is no new one to " + server + " ("
                + e.getMessage() + ")", e);
        }
        LOG.log(System.Logger.Level.WARNING, why + "; a new one to " + server + " was made, and "
            + (keys == null ? "if the front has ended its entries are gone" : "all entries are gone"));
        return current;
    }

    /** Closes the stream for good. */
    void close() throws IOException {
        Session last;
        synchronized (this) {
            closed = true;
            last = current;
        }
        last.line.close();
    }

    /** Returns the last stream, whether it has ended or not. */
    Line line() {
        return current.line;
    }
}
