package jentry.jcache.store;

import java.util.function.Supplier;

/**
 * The outcome of one run of a processor.
 *
 * @param value what the processor returned: a Long, an Integer, a Boolean or null
 * @param failure creates the exception if the run failed, else null
 * @param effect what the run did to its entry, or null if the store doesn't know
 * @param before the value before the run, or null if there was none or the store doesn't know
 * @param after the value after the run, or null if there is none or the store doesn't know
 */
public record Invocation(Object value, Supplier<? extends RuntimeException> failure, Effect effect, Long before,
    Long after) {

    /** Returns the outcome of a run of which only the result is known. */
    public static Invocation of(Object value) {
        return new Invocation(value, null, null, null, null);
    }

    /** Returns the outcome of a run that ended with an exception. Its entry is unchanged. */
    public static Invocation failed(Supplier<? extends RuntimeException> failure) {
        return new Invocation(null, failure, null, null, null);
    }

    /** Returns whether the processor returned null. */
    public boolean isNull() {
        return failure == null && value == null;
    }

    /**
     * Returns what the processor returned.
     *
     * @throws javax.cache.processor.EntryProcessorException if the processor threw
     * @throws javax.cache.CacheException if the store didn't run the processor
     */
    public Object result() {
        if (failure != null) {
            throw failure.get();
        }
        return value;
    }
}
