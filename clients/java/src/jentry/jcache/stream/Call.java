package jentry.jcache.stream;

import java.io.IOException;
import jentry.jcache.CallNotSentException;
import jentry.jcache.CallOutcomeUnknownException;

/**
 * Requests that go in one round, and the outcome of their replies. The thread that leads the round takes the replies;
 * the thread that made the call creates the exceptions, so that their stack traces show the caller.
 */
abstract class Call {
    private final Wire.Out text;
    private final int requests;
    private final int jobs;

    // Only Line uses these two.
    Thread waiter;
    volatile State state = State.WAITS;

    private Throwable cause;
    private String trouble;
    private boolean wasSent;
    private boolean wasClosed;

    /** The state of a call: it waits, its thread must lead the round, or it has ended. */
    enum State { WAITS, LEADS, ENDED }

    /**
     * @param text the frames of the requests
     * @param requests the number of requests, and of replies
     * @param jobs the number of jobs in the round
     */
    Call(Wire.Out text, int requests, int jobs) {
        this.text = text;
        this.requests = requests;
        this.jobs = jobs;
    }

    final Wire.Out text() {
        return text;
    }

    final int requests() {
        return requests;
    }

    final int jobs() {
        return jobs;
    }

    /**
     * Takes the reply to one of the requests.
     *
     * @throws IOException if it isn't a reply to that request; the stream is broken then
     */
    abstract void reply(int request, int kind, Wire.In body) throws IOException;

    /**
     * Called once, by the thread that ends the call, after all replies have come or the call has failed. It must not
     * wait and must not throw.
     */
    void ended() { }

    /** Records that the stream broke before the call had its replies: the reason, and whether the call was sent. */
    final void fail(String why, Throwable by, boolean sent) {
        trouble = why;
        cause = by;
        wasSent = sent;
    }

    /** Records that the cache was closed before the call was sent. */
    final void close(String why) {
        trouble = why;
        wasClosed = true;
    }

    /**
     * Throws if the stream broke before the call had its replies, or the cache was closed before the call was sent.
     */
    final void check() {
        if (wasClosed) {
            throw new IllegalStateException(trouble);
        } else if (trouble != null) {
            throw wasSent ? new CallOutcomeUnknownException(trouble, cause)
                : new CallNotSentException(trouble, cause);
        }
    }

    /** Returns the exception for a reply of the wrong kind. */
    static IOException unlike(int kind) {
        return new IOException("a reply of kind " + kind + ", which doesn't answer its request");
    }
}
