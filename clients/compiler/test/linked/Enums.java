import javax.cache.processor.EntryProcessor;
import javax.cache.processor.MutableEntry;

/** Processors with enums: held, found by their ordinals, and in switches. */
public class Enums {
    /** A state. */
    public enum State {
        NEW, OPEN, CLOSED;

        boolean isOpen() {
            return this == OPEN;
        }

        State next() {
            return values()[(ordinal() + 1) % values().length];
        }
    }

    /** A machine of states, kept as ordinals. */
    public static class Machine implements EntryProcessor<Long, Long, Long> {
        @Override
        public Long process(MutableEntry<Long, Long> entry, Object... arguments) {
            State now = entry.exists() ? State.values()[(int) (entry.getValue() & 3)] : State.NEW;
            State then;
            switch (now) {
                case NEW:
                    then = State.OPEN;
                    break;
                case OPEN:
                    then = arguments.length > 0 ? State.CLOSED : now.next();
                    break;
                default:
                    then = now;
            }
            entry.setValue((long) then.ordinal());
            return then.isOpen() ? 1L : then.compareTo(now) * 10L;
        }
    }

    /** A direction, with fields. */
    public enum Direction {
        NORTH(0, 1, true), EAST(1, 0, false), SOUTH(0, -1, true), WEST(-1L, 0, false);

        final long dx;
        final int dy;
        private final boolean isUpright;

        Direction(long dx, int dy, boolean isUpright) {
            this.dx = dx;
            this.dy = dy;
            this.isUpright = isUpright;
        }

        long length() {
            return isUpright ? 10 : 20;
        }
    }

    /** Reads the fields of constants. */
    public static class Robot implements EntryProcessor<Long, Long, Long> {
        private final Direction home;

        public Robot(Direction home) {
            this.home = home;
        }

        @Override
        public Long process(MutableEntry<Long, Long> entry, Object... arguments) {
            long x = 0;
            long y = 0;
            for (Object one : arguments) {
                Direction step = Direction.values()[(int) (((Number) one).longValue() & 3)];
                x += step.dx * step.length();
                y += step.dy;
            }
            return 1_000 * x + y + home.dx + Direction.EAST.length();
        }
    }

    /** Holds a constant of the enum. */
    public static class Moves implements EntryProcessor<Long, Long, Long> {
        private final State to;

        public Moves(State to) {
            this.to = to;
        }

        @Override
        public Long process(MutableEntry<Long, Long> entry, Object... arguments) {
            long sum = 0;
            for (State one : State.values()) {
                sum += one.equals(to) ? 100 : one.ordinal();
            }
            return sum + (to != State.NEW ? 7 : 0);
        }
    }
}
