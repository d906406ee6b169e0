import javax.cache.processor.EntryProcessor;
import javax.cache.processor.MutableEntry;

/** Processors with arrays of arrays. */
public class Tables {
    /** A constant table, by indices that the data give. */
    public static class Lookup implements EntryProcessor<Long, Long, Long> {
        private static final int[][] TABLE = {{3, 1, 4}, {1, 5, 9}, {2, 6, 5}, {3, 5, 8}};
        private static final long[][] SQUARES = new long[5][2];

        static {
            for (int i = 0; i < SQUARES.length; i++) {
                SQUARES[i][0] = i * i;
                SQUARES[i][1] = -i * i;
            }
        }

        @Override
        public Long process(MutableEntry<Long, Long> entry, Object... arguments) {
            int i = (int) (entry.getKey() % 5);
            int j = (int) (entry.getKey() >> 3 & 3);
            int[] row = TABLE[i];
            long sum = 0;
            for (int[] each : TABLE) {
                sum = 10 * sum + each[1] + each.length;
            }
            return sum + row[j] + SQUARES[i][j & 1] * TABLE.length;
        }
    }

    /** Grids that process makes and fills. */
    public static class Boards implements EntryProcessor<Long, Long, Long> {
        @Override
        public Long process(MutableEntry<Long, Long> entry, Object... arguments) {
            boolean[][] cells = new boolean[4][5];
            byte[][] counts = new byte[4][5];
            long bits = entry.getKey();
            for (int y = 0; y < 4; y++) {
                for (int x = 0; x < 5; x++) {
                    cells[y][x] = (bits >>> y * 5 + x & 1) != 0;
                    counts[y][x] += (byte) (cells[y][x] ? 100 : 1);
                    counts[y][x] *= 3;
                }
            }
            int[] last = new int[2];
            long turned = 0;
            for (int y = 0; y < cells.length; y++) {
                byte[] row = counts[y];
                for (int x = 0; x < cells[y].length; x++) {
                    turned += cells[y][x] ? 1L << x * 4 + y : 0;
                    last[x & 1] += row[x]--;
                }
            }
            entry.setValue(turned);
            return turned + counts[(int) (bits % 4)][(int) (bits >> 2) % 5] + last[1];
        }
    }

    /** Two grids at once, made again in each pass. */
    public static class Product implements EntryProcessor<Long, Long, Long> {
        @Override
        public Long process(MutableEntry<Long, Long> entry, Object... arguments) {
            long sum = 0;
            for (int pass = 0; pass < 2; pass++) {
                long[][] a = new long[2][2];
                long[][] b = new long[2][2];
                a[0][pass] = entry.getKey();
                a[1][0] = 3;
                b[0][0] = pass + 1;
                b[1][1] = 7;
                for (int i = 0; i < 2; i++) {
                    for (int j = 0; j < 2; j++) {
                        sum = 31 * sum + a[i][0] * b[0][j] + a[i][1] * b[1][j];
                    }
                }
            }
            return sum;
        }
    }
}
