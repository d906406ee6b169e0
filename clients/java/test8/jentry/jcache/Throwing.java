package jentry.jcache;

import javax.cache.processor.EntryProcessor;
import javax.cache.processor.EntryProcessorException;
import javax.cache.processor.MutableEntry;

/**
 * Sets 77, then throws the exception that its argument names: 1 and 7 to 10 are the numbers of the server, and those from 11 on have no text. Compiled with
 * --release 8. Its constant pool has a long, which takes two indexes.
 */
public final class Throwing implements EntryProcessor<Long, Long, Long> {
    /** Texts of the exceptions. */
    public static final String ARITHMETIC = "more than 5000000000", OWN = "of the processor: two  spaces", ARGUMENT = "größer als 10 €, \uD83D\uDE00",
        STATE = "full", OPERATION = "";

    @Override public Long process(MutableEntry<Long, Long> entry, Object... arguments) {
        long number = (Long) arguments[0];
        entry.setValue(77L);
        if (number > 5_000_000_000L) {
            throw new ArithmeticException(ARITHMETIC);
        }
        switch ((int) number) {
            case 1: throw new ArithmeticException(ARITHMETIC);
            case 7: throw new EntryProcessorException(OWN);
            case 8: throw new IllegalArgumentException(ARGUMENT);
            case 9: throw new IllegalStateException(STATE);
            case 10: throw new UnsupportedOperationException(OPERATION);
            case 11: throw new ArithmeticException();
            case 17: throw new EntryProcessorException();
            case 18: throw new IllegalArgumentException();
            case 19: throw new IllegalStateException();
            case 20: throw new UnsupportedOperationException();
            default: return number;
        }
    }
}
