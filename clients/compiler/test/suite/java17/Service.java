import java.util.concurrent.atomic.AtomicLong;
import java.util.function.LongUnaryOperator;
import javax.cache.processor.EntryProcessor;
import javax.cache.processor.MutableEntry;

/** A service that makes its processors as it needs them. */
public class Service {
    private static final AtomicLong CALLS = new AtomicLong();
    private final int shards;
    private long epoch;

    Service(int shards) {
        this.shards = shards;
    }

    EntryProcessor<Long, Long, Integer> shardOf() {
        return (entry, args) -> (int) Math.floorMod(entry.getKey(), (long) shards);
    }

    EntryProcessor<Long, Long, Long> stamped(long now) {
        return (entry, args) -> {
            long stamp = Math.max(now, entry.exists() ? entry.getValue() + 1 : 0);
            entry.setValue(stamp);
            return stamp;
        };
    }

    EntryProcessor<Long, Long, Long> inEpoch() {
        return new EntryProcessor<>() {
            @Override
            public Long process(MutableEntry<Long, Long> entry, Object... arguments) {
                entry.setValue(epoch << 32 | (entry.exists() ? entry.getValue() & 0xFFFFFFFFL : 0));
                return entry.getValue();
            }
        };
    }

    static EntryProcessor<Long, Long, Long> counted() {
        return (entry, args) -> {
            CALLS.incrementAndGet();
            return entry.getValue();
        };
    }

    static EntryProcessor<Long, Long, Long> applying(LongUnaryOperator operator) {
        return (entry, args) -> {
            long next = operator.applyAsLong(entry.exists() ? entry.getValue() : 0);
            entry.setValue(next);
            return next;
        };
    }

    static EntryProcessor<Long, Long, Long> anonymous() {
        return new EntryProcessor<Long, Long, Long>() {
            @Override
            public Long process(MutableEntry<Long, Long> entry, Object... arguments) {
                long sum = 0;
                for (int i = 0; i < arguments.length; i += 2) {
                    sum += (Long) arguments[i];
                }
                entry.setValue(sum);
                return sum;
            }
        };
    }

    static EntryProcessor<Long, Long, Integer> trailingZeros() {
        return (entry, args) -> {
            long value = entry.getValue();
            int zeros = 0;
            while (value != 0 && (value & 1) == 0) {
                value >>>= 1;
                zeros++;
            }
            return zeros;
        };
    }

    static EntryProcessor<Long, Long, Long> twoOfThree() {
        return (entry, args) -> {
            Long a = (Long) args[0];
            Long b = (Long) args[1];
            Long c = (Long) args[2];
            if (a.equals(b) || a.equals(c)) {
                entry.setValue(a);
                return a;
            } else if (b.equals(c)) {
                entry.setValue(b);
                return b;
            }
            return null;
        };
    }
}
