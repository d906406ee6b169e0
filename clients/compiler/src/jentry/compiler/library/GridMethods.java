package jentry.compiler.library;

/** Arrays of arrays of one length, as one array. A row is its number here. */
public final class GridMethods {
    private GridMethods() { }

    public static int row(int row, int rows, int[] all) {
        return row < 0 || row >= rows ? all[-1] : row;
    }

    public static int row(int row, int rows, long[] all) {
        return row < 0 || row >= rows ? (int) all[-1] : row;
    }

    public static int get(int row, int column, int columns, int[] all) {
        return all[column < 0 || column >= columns ? -1 : row * columns + column];
    }

    public static long get(int row, int column, int columns, long[] all) {
        return all[column < 0 || column >= columns ? -1 : row * columns + column];
    }

    public static void set(int row, int column, int value, int columns, int[] all) {
        all[column < 0 || column >= columns ? -1 : row * columns + column] = value;
    }

    public static void set(int row, int column, long value, int columns, long[] all) {
        all[column < 0 || column >= columns ? -1 : row * columns + column] = value;
    }
}
