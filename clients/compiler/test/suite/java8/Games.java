import javax.cache.processor.EntryProcessor;
import javax.cache.processor.MutableEntry;

/** Boards, scores, dice and cards. */
public final class Games {
    private Games() { }

    public static class TicTacToe implements EntryProcessor<Long, Long, Integer> {
        private static final int[] LINES = {0007, 0070, 0700, 0111, 0222, 0444, 0421, 0124};

        @Override
        public Integer process(MutableEntry<Long, Long> entry, Object... arguments) {
            int cell = (Integer) arguments[0];
            int player = (Integer) arguments[1];
            long board = entry.exists() ? entry.getValue() : 0;
            int bit = 1 << cell;
            int all = (int) (board & 0x1FF | board >> 9);
            if (cell < 0 || cell > 8 || (all & bit) != 0) {
                return -1;
            }
            board |= (long) bit << 9 * player;
            entry.setValue(board);
            int mine = (int) (board >> 9 * player & 0x1FF);
            for (int line : LINES) {
                if ((mine & line) == line) {
                    return player + 1;
                }
            }
            return 0;
        }
    }

    public static class GameOfLife implements EntryProcessor<Long, Long, Long> {
        @Override
        public Long process(MutableEntry<Long, Long> entry, Object... arguments) {
            long now = entry.getValue();
            long next = 0;
            for (int y = 0; y < 8; y++) {
                for (int x = 0; x < 8; x++) {
                    int alive = 0;
                    for (int dy = -1; dy <= 1; dy++) {
                        for (int dx = -1; dx <= 1; dx++) {
                            if (dx != 0 || dy != 0) {
                                int at = (y + dy & 7) * 8 + (x + dx & 7);
                                alive += (int) (now >>> at & 1);
                            }
                        }
                    }
                    boolean lives = (now >>> y * 8 + x & 1) == 1;
                    if (alive == 3 || lives && alive == 2) {
                        next |= 1L << y * 8 + x;
                    }
                }
            }
            entry.setValue(next);
            return next;
        }
    }

    public static class Elo implements EntryProcessor<Long, Long, Long> {
        @Override
        public Long process(MutableEntry<Long, Long> entry, Object... arguments) {
            double mine = entry.exists() ? entry.getValue() : 1500;
            double other = (Long) arguments[0];
            double expected = 1 / (1 + Math.pow(10, (other - mine) / 400));
            long next = Math.round(mine + 32 * ((Integer) arguments[1] - expected));
            entry.setValue(next);
            return next;
        }
    }

    public static class Dice implements EntryProcessor<Long, Long, Integer> {
        @Override
        public Integer process(MutableEntry<Long, Long> entry, Object... arguments) {
            long x = entry.exists() ? entry.getValue() : 88172645463325252L;
            x ^= x << 13;
            x ^= x >>> 7;
            x ^= x << 17;
            entry.setValue(x);
            return (int) Long.remainderUnsigned(x, 6) + 1;
        }
    }

    public static class RandomDice implements EntryProcessor<Long, Long, Integer> {
        @Override
        public Integer process(MutableEntry<Long, Long> entry, Object... arguments) {
            int roll = (int) (Math.random() * 6) + 1;
            entry.setValue((long) roll);
            return roll;
        }
    }

    public static class Shuffle implements EntryProcessor<Long, Long, Long> {
        @Override
        public Long process(MutableEntry<Long, Long> entry, Object... arguments) {
            long seed = (Long) arguments[0];
            int[] cards = new int[16];
            for (int i = 0; i < cards.length; i++) {
                cards[i] = i;
            }
            for (int i = cards.length - 1; i > 0; i--) {
                seed = seed * 6364136223846793005L + 1442695040888963407L;
                int j = (int) (seed >>> 33) % (i + 1);
                int card = cards[i];
                cards[i] = cards[j];
                cards[j] = card;
            }
            long deck = 0;
            for (int card : cards) {
                deck = deck << 4 | card;
            }
            entry.setValue(deck);
            return deck;
        }
    }

    public static class Highscore implements EntryProcessor<Long, Long, Long> {
        @Override
        public Long process(MutableEntry<Long, Long> entry, Object... arguments) {
            Integer score = (Integer) arguments[0];
            if (entry.exists() && entry.getValue() >= score) {
                return entry.getValue();
            }
            entry.setValue(score.longValue());
            return entry.getValue();
        }
    }

    public static class Streak implements EntryProcessor<Long, Long, Integer> {
        @Override
        public Integer process(MutableEntry<Long, Long> entry, Object... arguments) {
            boolean won = (Boolean) arguments[0];
            long history = (entry.exists() ? entry.getValue() : 0) << 1 | (won ? 1 : 0);
            entry.setValue(history);
            int streak = 0;
            while ((history & 1) == 1) {
                streak++;
                history >>>= 1;
            }
            return streak;
        }
    }

    public static class LongestRun implements EntryProcessor<Long, Long, Integer> {
        @Override
        public Integer process(MutableEntry<Long, Long> entry, Object... arguments) {
            long bits = entry.getValue();
            int run = 0;
            while (bits != 0) {
                bits &= bits << 1;
                run++;
            }
            return run;
        }
    }

    public static class QueensSafe implements EntryProcessor<Long, Long, Boolean> {
        @Override
        public Boolean process(MutableEntry<Long, Long> entry, Object... arguments) {
            int n = arguments.length;
            for (int i = 0; i < n; i++) {
                for (int j = i + 1; j < n; j++) {
                    int a = (Integer) arguments[i];
                    int b = (Integer) arguments[j];
                    if (a == b || Math.abs(a - b) == j - i) {
                        return false;
                    }
                }
            }
            return true;
        }
    }

    public static class PairsThatMatch implements EntryProcessor<Long, Long, Integer> {
        @Override
        public Integer process(MutableEntry<Long, Long> entry, Object... arguments) {
            int n = arguments.length;
            int pairs = 0;
            for (int i = 0; i < n; i++) {
                for (int j = i + 1; j < n; j++) {
                    if (((Long) arguments[i]).equals(arguments[j])) {
                        pairs++;
                    }
                }
            }
            return pairs;
        }
    }
}
