import java.io.Serializable;
import javax.cache.processor.EntryProcessor;
import javax.cache.processor.MutableEntry;

/** Processors written as lambdas and method references, as a service class holds them. */
public class Lambdas {
    /** A processor that can be sent. */
    interface Remote extends EntryProcessor<Long, Long, Long>, Serializable { }

    static final EntryProcessor<Long, Long, Long> INCREMENT = (entry, args) -> {
        long next = (entry.exists() ? entry.getValue() : 0L) + 1;
        entry.setValue(next);
        return next;
    };

    static final EntryProcessor<Long, Long, Long> SUM = (entry, args) -> {
        long sum = 0;
        for (Object arg : args) {
            sum += ((Number) arg).longValue();
        }
        entry.setValue(sum);
        return sum;
    };

    static final EntryProcessor<Long, Long, Boolean> EXISTS = (entry, args) -> entry.exists();

    static final EntryProcessor<Long, Long, Void> CLEAR = (entry, args) -> {
        entry.remove();
        return null;
    };

    private static final long STEP = 10;
    private final long limit;

    Lambdas(long limit) {
        this.limit = limit;
    }

    EntryProcessor<Long, Long, Long> adder(long delta) {
        return (entry, args) -> {
            long sum = entry.getValue() + delta;
            entry.setValue(sum);
            return sum;
        };
    }

    EntryProcessor<Long, Long, Long> limited() {
        return (entry, args) -> {
            long next = Math.min(limit, entry.getValue() + STEP);
            entry.setValue(next);
            return next;
        };
    }

    static EntryProcessor<Long, Long, Long> stepper() {
        return (entry, args) -> entry.exists() ? entry.getValue() + STEP : STEP;
    }

    static EntryProcessor<Long, Long, Long> reference() {
        return Lambdas::largest;
    }

    private static Long largest(MutableEntry<Long, Long> entry, Object... args) {
        Long largest = entry.getValue();
        for (Object arg : args) {
            Long one = (Long) arg;
            if (largest == null || one > largest) {
                largest = one;
            }
        }
        if (largest != null) {
            entry.setValue(largest);
        }
        return largest;
    }

    static Remote remote() {
        return (entry, args) -> {
            long mask = (Long) args[0];
            long word = entry.exists() ? entry.getValue() : 0;
            entry.setValue(word ^ mask);
            return word;
        };
    }

    static EntryProcessor<Long, Long, Long> window(int width) {
        return (entry, args) -> {
            long sum = 0;
            for (int i = 0; i < width && i < args.length; i++) {
                sum += (Long) args[i];
            }
            return sum / width;
        };
    }
}
