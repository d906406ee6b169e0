package jentry.jcache.impl;

import javax.cache.integration.CacheLoaderException;
import javax.cache.processor.EntryProcessorException;

/** The exceptions with which a processor can end at a server, by the server's numbers. */
public final class ProcessorFaults {
    /** The number of the first exception that nothing but a throw of the processor ends with. */
    public static final int FIRST_THROWN = 7;

    private ProcessorFaults() { }

    /**
     * Returns the exception that {@code invoke} throws if an instruction of a processor ended it with an exception.
     *
     * @param number the server's number of the exception
     * @param type the name of the processor's class
     */
    public static EntryProcessorException of(int number, String type) {
        return wrapped(exception(number, "in " + type + ", run by the server"));
    }

    /**
     * Returns the exception that {@code invoke} throws if a processor threw one by itself: an EntryProcessorException
     * as it is, another one as the cause.
     *
     * @param number the server's number of the exception
     * @param text the text that the processor gave it, or null
     */
    public static EntryProcessorException thrown(int number, String text) {
        Throwable thrown = exception(number, text);
        return thrown instanceof EntryProcessorException ? (EntryProcessorException) thrown : wrapped(thrown);
    }

    private static EntryProcessorException wrapped(Throwable thrown) {
        return thrown instanceof Exception ? new EntryProcessorException((Exception) thrown)
            : new EntryProcessorException(thrown);
    }

    /** Returns the exception that {@code get} throws if the server's loader ended with an exception. */
    public static CacheLoaderException ofLoader(int number) {
        Throwable thrown = exception(number, "in the server's loader");
        return thrown instanceof CacheLoaderException ? (CacheLoaderException) thrown
            : new CacheLoaderException(thrown);
    }

    /** Returns the exception of a number. The fifth one is an Error in Java. */
    private static Throwable exception(int number, String message) {
        switch (number) {
            // generated from protocol/exceptions.tsv by protocol/generate.py --write
            case 1: return new ArithmeticException(message);
            case 2: return new ArrayIndexOutOfBoundsException(message);
            case 3: return new NullPointerException(message);
            case 4: return new ClassCastException(message);
            case 5: return new IncompatibleClassChangeError(message);
            case 6: return new CacheLoaderException(message);
            case 7: return new EntryProcessorException(message);
            case 8: return new IllegalArgumentException(message);
            case 9: return new IllegalStateException(message);
            case 10: return new UnsupportedOperationException(message);
            // end of the generated part
            default: return new IllegalStateException("exception " + number + (message == null ? "" : " " + message));
        }
    }
}
