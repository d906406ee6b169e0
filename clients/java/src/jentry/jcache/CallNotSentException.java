package jentry.jcache;

import javax.cache.CacheException;

/** The request didn't reach the server, or the server did nothing with it. The call can be repeated safely. */
public final class CallNotSentException extends CacheException {
    private static final long serialVersionUID = 1L;

    /** Creates an exception with a reason and a cause. */
    public CallNotSentException(String reason, Throwable cause) {
        super(reason + "; this call was not sent", cause);
    }
}
