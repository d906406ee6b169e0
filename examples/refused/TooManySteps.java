import javax.cache.processor.EntryProcessor;
import javax.cache.processor.MutableEntry;

/** Each method calls the one before it ten times, so the last one takes more than four million steps. */
public class TooManySteps implements EntryProcessor<Long, Long, Object> {
    public Object process(MutableEntry<Long, Long> entry, Object... arguments) {
        return g(entry.getValue());
    }

    private static long a(long x) {
        return x * x * x * x * x * x * x * x * x * x;
    }

    private static long b(long x) {
        return a(a(a(a(a(a(a(a(a(a(x))))))))));
    }

    private static long c(long x) {
        return b(b(b(b(b(b(b(b(b(b(x))))))))));
    }

    private static long d(long x) {
        return c(c(c(c(c(c(c(c(c(c(x))))))))));
    }

    private static long e(long x) {
        return d(d(d(d(d(d(d(d(d(d(x))))))))));
    }

    private static long f(long x) {
        return e(e(e(e(e(e(e(e(e(e(x))))))))));
    }

    private static long g(long x) {
        return f(f(f(f(f(f(f(f(f(f(x))))))))));
    }
}
