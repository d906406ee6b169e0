import java.util.Objects;
import javax.cache.processor.EntryProcessor;
import javax.cache.processor.EntryProcessorException;
import javax.cache.processor.MutableEntry;

/** Leases, locks, fencing tokens and elections. */
public final class Leases {
    private Leases() { }

    public static class Acquire implements EntryProcessor<Long, Long, Boolean> {
        @Override
        public Boolean process(MutableEntry<Long, Long> entry, Object... arguments) {
            long owner = (Long) arguments[0];
            if (entry.exists() && entry.getValue() != owner) {
                return false;
            }
            entry.setValue(owner);
            return true;
        }
    }

    public static class Release implements EntryProcessor<Long, Long, Boolean> {
        @Override
        public Boolean process(MutableEntry<Long, Long> entry, Object... arguments) {
            if (Objects.equals(entry.getValue(), arguments[0])) {
                entry.remove();
                return true;
            }
            return false;
        }
    }

    public static class Renew implements EntryProcessor<Long, Long, Long> {
        private static final long OWNER_BITS = 16;
        private static final long OWNER_MASK = (1L << OWNER_BITS) - 1;

        @Override
        public Long process(MutableEntry<Long, Long> entry, Object... arguments) {
            long owner = (Long) arguments[0] & OWNER_MASK;
            long now = (Long) arguments[1];
            long ttl = (Long) arguments[2];
            Long lease = entry.getValue();
            boolean free = lease == null || lease >> OWNER_BITS < now;
            if (!free && (lease & OWNER_MASK) != owner) {
                return lease >> OWNER_BITS;
            }
            entry.setValue(now + ttl << OWNER_BITS | owner);
            return 0L;
        }
    }

    public static class FencingToken implements EntryProcessor<Long, Long, Long> {
        @Override
        public Long process(MutableEntry<Long, Long> entry, Object... arguments) {
            Long token = entry.getValue();
            token = token == null ? 1L : token + 1;
            entry.setValue(token);
            return token;
        }
    }

    public static class CheckFence implements EntryProcessor<Long, Long, Long> {
        @Override
        public Long process(MutableEntry<Long, Long> entry, Object... arguments) {
            Long offered = (Long) arguments[0];
            Long highest = entry.getValue();
            if (highest != null && offered.compareTo(highest) < 0) {
                throw new EntryProcessorException("stale token");
            }
            entry.setValue(offered);
            return offered;
        }
    }

    public static class SharedLock implements EntryProcessor<Long, Long, Integer> {
        private static final int WRITER = -1;

        @Override
        public Integer process(MutableEntry<Long, Long> entry, Object... arguments) {
            boolean exclusive = (Integer) arguments[0] != 0;
            int state = entry.exists() ? entry.getValue().intValue() : 0;
            if (exclusive) {
                if (state != 0) {
                    return 0;
                }
                entry.setValue((long) WRITER);
                return 1;
            }
            if (state == WRITER) {
                return 0;
            }
            entry.setValue(state + 1L);
            return 1;
        }
    }

    public static class Semaphore implements EntryProcessor<Long, Long, Boolean> {
        private final int permits;

        public Semaphore(int permits) {
            if (permits <= 0) {
                throw new IllegalArgumentException("permits: " + permits);
            }
            this.permits = permits;
        }

        @Override
        public Boolean process(MutableEntry<Long, Long> entry, Object... arguments) {
            long taken = entry.exists() ? entry.getValue() : 0L;
            if (taken >= permits) {
                return false;
            }
            entry.setValue(taken + 1);
            return true;
        }
    }

    /** One bit for each of 64 slots; takes the lowest free one. */
    public static class SlotAllocator implements EntryProcessor<Long, Long, Integer> {
        @Override
        public Integer process(MutableEntry<Long, Long> entry, Object... arguments) {
            long taken = entry.exists() ? entry.getValue() : 0L;
            for (int slot = 0; slot < Long.SIZE; slot++) {
                if ((taken & 1L << slot) == 0) {
                    entry.setValue(taken | 1L << slot);
                    return slot;
                }
            }
            return -1;
        }
    }

    public static class FreeSlots implements EntryProcessor<Long, Long, Integer> {
        @Override
        public Integer process(MutableEntry<Long, Long> entry, Object... arguments) {
            long free = entry.exists() ? ~entry.getValue() : -1L;
            int count = 0;
            while (free != 0) {
                free &= free - 1;
                count++;
            }
            return count;
        }
    }

    public static class Elect implements EntryProcessor<Long, Long, Long> {
        @Override
        public Long process(MutableEntry<Long, Long> entry, Object... candidates) {
            if (entry.exists()) {
                return entry.getValue();
            }
            Long leader = null;
            for (Object candidate : candidates) {
                Long id = (Long) candidate;
                if (leader == null || id < leader) {
                    leader = id;
                }
            }
            if (leader != null) {
                entry.setValue(leader);
            }
            return leader;
        }
    }

    public static class Heartbeat implements EntryProcessor<Long, Long, Long> {
        @Override
        public Long process(MutableEntry<Long, Long> entry, Object... arguments) {
            long now = (Long) arguments[0];
            Long last = entry.getValue();
            entry.setValue(now);
            return last == null ? -1 : Math.abs(now - last);
        }
    }
}
