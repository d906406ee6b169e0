import javax.cache.processor.EntryProcessor;
import javax.cache.processor.MutableEntry;

/** Structs packed into one long: fields, arrays of nibbles, stacks and queues. */
public final class PackedStructs {
    private PackedStructs() { }

    /** Reads and writes fields. */
    static final class Bits {
        private Bits() { }

        static long get(long word, int from, int width) {
            return word >>> from & (1L << width) - 1;
        }

        static long set(long word, int from, int width, long value) {
            long mask = (1L << width) - 1 << from;
            return word & ~mask | value << from & mask;
        }
    }

    public static class SetField implements EntryProcessor<Long, Long, Long> {
        @Override
        public Long process(MutableEntry<Long, Long> entry, Object... arguments) {
            int from = (Integer) arguments[0];
            int width = (Integer) arguments[1];
            long value = (Long) arguments[2];
            long word = entry.exists() ? entry.getValue() : 0;
            long old = Bits.get(word, from, width);
            entry.setValue(Bits.set(word, from, width, value));
            return old;
        }
    }

    public static class Position implements EntryProcessor<Long, Long, Long> {
        @Override
        public Long process(MutableEntry<Long, Long> entry, Object... arguments) {
            long state = entry.exists() ? entry.getValue() : 0;
            int x = (int) (state >> 32);
            int y = (int) state;
            x += (Integer) arguments[0];
            y += (Integer) arguments[1];
            entry.setValue(pack(x, y));
            return (long) Math.abs(x) + Math.abs(y);
        }

        private static long pack(int x, int y) {
            return (long) x << 32 | y & 0xFFFFFFFFL;
        }
    }

    public static class Point implements EntryProcessor<Long, Long, Long> {
        /** A point on the map. */
        static final class XY {
            final int x;
            final int y;

            XY(int x, int y) {
                this.x = x;
                this.y = y;
            }

            XY plus(XY other) {
                return new XY(x + other.x, y + other.y);
            }

            long packed() {
                return (long) x << 32 | y & 0xFFFFFFFFL;
            }

            static XY of(long packed) {
                return new XY((int) (packed >> 32), (int) packed);
            }
        }

        @Override
        public Long process(MutableEntry<Long, Long> entry, Object... arguments) {
            XY at = XY.of(entry.exists() ? entry.getValue() : 0);
            XY moved = at.plus(new XY((Integer) arguments[0], (Integer) arguments[1]));
            entry.setValue(moved.packed());
            return moved.packed();
        }
    }

    public static class NibbleSum implements EntryProcessor<Long, Long, Integer> {
        @Override
        public Integer process(MutableEntry<Long, Long> entry, Object... arguments) {
            int sum = 0;
            for (long rest = entry.getValue(); rest != 0; rest >>>= 4) {
                sum += (int) (rest & 0xF);
            }
            return sum;
        }
    }

    public static class SortNibbles implements EntryProcessor<Long, Long, Long> {
        @Override
        public Long process(MutableEntry<Long, Long> entry, Object... arguments) {
            long word = entry.getValue();
            int[] counts = new int[16];
            for (int i = 0; i < 16; i++) {
                counts[(int) (word >>> 4 * i & 15)]++;
            }
            long sorted = 0;
            for (int nibble = 0; nibble < 16; nibble++) {
                for (int n = 0; n < counts[nibble]; n++) {
                    sorted = sorted << 4 | nibble;
                }
            }
            entry.setValue(sorted);
            return sorted;
        }
    }

    public static class Push implements EntryProcessor<Long, Long, Boolean> {
        @Override
        public Boolean process(MutableEntry<Long, Long> entry, Object... arguments) {
            long stack = entry.exists() ? entry.getValue() : 0;
            if (stack >>> 56 != 0) {
                return false;
            }
            entry.setValue(stack << 8 | (Integer) arguments[0] & 0x7F | 0x80);
            return true;
        }
    }

    public static class Pop implements EntryProcessor<Long, Long, Integer> {
        @Override
        public Integer process(MutableEntry<Long, Long> entry, Object... arguments) {
            long stack = entry.exists() ? entry.getValue() : 0;
            if (stack == 0) {
                return null;
            }
            entry.setValue(stack >>> 8);
            return (int) (stack & 0x7F);
        }
    }

    public static class QueueLength implements EntryProcessor<Long, Long, Integer> {
        @Override
        public Integer process(MutableEntry<Long, Long> entry, Object... arguments) {
            Long queue = entry.getValue();
            int length = 0;
            if (queue != null) {
                long rest = queue;
                while (rest != 0) {
                    rest >>>= 8;
                    length++;
                }
            }
            return length;
        }
    }

    public static class Flags implements EntryProcessor<Long, Long, Integer> {
        private static final long ACTIVE = 1;
        private static final long LOCKED = 1 << 1;
        private static final long DELETED = 1 << 2;

        @Override
        public Integer process(MutableEntry<Long, Long> entry, Object... arguments) {
            long flags = entry.exists() ? entry.getValue() : ACTIVE;
            if ((flags & DELETED) != 0) {
                return -1;
            }
            if ((flags & LOCKED) != 0) {
                return 0;
            }
            entry.setValue(flags | (Long) arguments[0]);
            return 1;
        }
    }

    public static class Status implements EntryProcessor<Long, Long, Integer> {
        /** The states of an order. */
        enum State { NEW, PAID, SHIPPED, DONE }

        @Override
        public Integer process(MutableEntry<Long, Long> entry, Object... arguments) {
            State state = entry.exists() ? State.values()[entry.getValue().intValue()] : State.NEW;
            State next;
            switch (state) {
                case NEW:
                    next = State.PAID;
                    break;
                case PAID:
                    next = State.SHIPPED;
                    break;
                default:
                    next = State.DONE;
            }
            entry.setValue((long) next.ordinal());
            return next.ordinal();
        }
    }

    public static class Rgba implements EntryProcessor<Long, Long, Long> {
        @Override
        public Long process(MutableEntry<Long, Long> entry, Object... arguments) {
            int under = entry.exists() ? entry.getValue().intValue() : 0;
            int over = (Integer) arguments[0];
            int alpha = over >>> 24;
            int result = 0xFF;
            for (int shift = 16; shift >= 0; shift -= 8) {
                int a = over >>> shift & 0xFF;
                int b = under >>> shift & 0xFF;
                result = result << 8 | (a * alpha + b * (255 - alpha)) / 255;
            }
            entry.setValue((long) result);
            return (long) result;
        }
    }

    public static class Version implements EntryProcessor<Long, Long, Long> {
        @Override
        public Long process(MutableEntry<Long, Long> entry, Object... arguments) {
            long current = entry.exists() ? entry.getValue() : 0;
            short version = (short) (current >>> 48);
            if (version != ((Integer) arguments[0]).shortValue()) {
                return -1L;
            }
            version++;
            long next = (long) version << 48 | (Long) arguments[1] & 0xFFFFFFFFFFFFL;
            entry.setValue(next);
            return next;
        }
    }

    public static class BytesOf implements EntryProcessor<Long, Long, Integer> {
        @Override
        public Integer process(MutableEntry<Long, Long> entry, Object... arguments) {
            byte[] bytes = new byte[8];
            long value = entry.getValue();
            for (int i = 7; i >= 0; i--) {
                bytes[i] = (byte) value;
                value >>= 8;
            }
            int zeros = 0;
            for (byte b : bytes) {
                if (b == 0) {
                    zeros++;
                }
            }
            return zeros;
        }
    }
}
