package jentry.jcache;

import javax.cache.CacheException;

/**
 * The request was sent and no reply came. The server may have run it, may still run it, or may never run it. A program
 * that repeats such a call may apply it twice.
 */
public final class CallOutcomeUnknownException extends CacheException {
    private static final long serialVersionUID = 1L;

    /** Creates an exception with a reason and a cause. */
    public CallOutcomeUnknownException(String reason, Throwable cause) {
        super(reason + "; whether this call has run is not known", cause);
    }
}
