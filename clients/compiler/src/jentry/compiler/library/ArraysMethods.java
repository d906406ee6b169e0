package jentry.compiler.library;

/** Methods of Arrays written with loops, which the compiler unrolls for arrays of a known length. */
public final class ArraysMethods {
    private ArraysMethods() { }

    public static void fill(long[] array, long value) {
        for (int i = 0; i < array.length; i++) {
            array[i] = value;
        }
    }

    public static void fill(int[] array, int value) {
        for (int i = 0; i < array.length; i++) {
            array[i] = value;
        }
    }

    public static void sort(long[] array) {
        for (int end = array.length - 1; end > 0; end--) {
            for (int i = 0; i < end; i++) {
                long least = Math.min(array[i], array[i + 1]);
                array[i + 1] = Math.max(array[i], array[i + 1]);
                array[i] = least;
            }
        }
    }

    public static void sort(int[] array) {
        for (int end = array.length - 1; end > 0; end--) {
            for (int i = 0; i < end; i++) {
                int least = Math.min(array[i], array[i + 1]);
                array[i + 1] = Math.max(array[i], array[i + 1]);
                array[i] = least;
            }
        }
    }
}
