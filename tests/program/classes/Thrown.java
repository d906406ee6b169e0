import javax.cache.processor.EntryProcessor;
import javax.cache.processor.EntryProcessorException;
import javax.cache.processor.MutableEntry;

/** Sets the value, and throws the exception whose number is the first argument; with a second one it has a text. */
public class Thrown implements EntryProcessor<Long, Long, Object> {
    public Object process(MutableEntry<Long, Long> entry, Object... arguments) {
        entry.setValue(99L);
        int number = (Integer) arguments[0];
        if (arguments.length > 1) {
            return withText(number);
        }
        switch (number) {
            case 1: throw new ArithmeticException();
            case 7: throw new EntryProcessorException();
            case 8: throw new IllegalArgumentException();
            case 9: throw new IllegalStateException();
            case 10: throw new UnsupportedOperationException();
            default: return null;
        }
    }

    private static Object withText(int number) {
        switch (number) {
            case 1: throw new ArithmeticException("of 1");
            case 7: throw new EntryProcessorException("of 7");
            case 8: throw new IllegalArgumentException("of 8");
            case 9: throw new IllegalStateException("of 9");
            case 10: throw new UnsupportedOperationException("of 10");
            default: return null;
        }
    }
}
