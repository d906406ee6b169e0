package javax.cache.processor;

import javax.cache.CacheException;

public class EntryProcessorException extends CacheException {
    public EntryProcessorException() {
    }

    public EntryProcessorException(String message) {
        super(message);
    }

    public EntryProcessorException(String message, Throwable cause) {
        super(message, cause);
    }

    public EntryProcessorException(Throwable cause) {
        super(cause);
    }
}
