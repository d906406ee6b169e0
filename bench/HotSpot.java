import java.nio.file.Files;
import java.nio.file.Paths;
import javax.cache.processor.EntryProcessor;
import javax.cache.processor.MutableEntry;

/**
 * Measures the nanoseconds of one call of a processor on a JVM, in the fastest of many short rounds. The arguments are those of
 * `bench run`: the class file, the number of calls in a round, the key, the value (`none` for no entry) and the arguments of the
 * processor.
 */
public class HotSpot {
    private static final int ROUNDS = 41;

    static Object last;

    private static final class Loader extends ClassLoader {
        Class<?> load(byte[] bytes) {
            return defineClass(null, bytes, 0, bytes.length);
        }
    }

    private static final class Entry implements MutableEntry<Long, Long> {
        private final Long key;
        private Long value;

        Entry(Long key, Long value) {
            this.key = key;
            this.value = value;
        }

        public Long getKey() {
            return key;
        }

        public Long getValue() {
            return value;
        }

        public boolean exists() {
            return value != null;
        }

        public void remove() {
            value = null;
        }

        public void setValue(Long value) {
            if (value == null) {
                throw new NullPointerException();
            }
            this.value = value;
        }

        public <T> T unwrap(Class<T> type) {
            throw new IllegalArgumentException();
        }
    }

    private static Object argument(String word) {
        if (word.equals("null")) {
            return null;
        }
        if (word.endsWith("i")) {
            return Integer.valueOf(word.substring(0, word.length() - 1));
        }
        return Long.valueOf(word);
    }

    private static double round(EntryProcessor<Long, Long, Object> processor, int count, Long key, Long value, Object[] arguments) {
        long start = System.nanoTime();
        for (int i = 0; i < count; i++) {
            last = processor.process(new Entry(key, value), arguments);
        }
        return (System.nanoTime() - start) / (double) count;
    }

    @SuppressWarnings("unchecked")
    public static void main(String[] words) throws Exception {
        Class<?> type = new Loader().load(Files.readAllBytes(Paths.get(words[0])));
        EntryProcessor<Long, Long, Object> processor = (EntryProcessor<Long, Long, Object>) type.getConstructor().newInstance();
        int count = Integer.parseInt(words[1]);
        Long key = Long.valueOf(words[2]);
        Long value = (Long) (words[3].equals("none") ? null : argument(words[3]));
        Object[] arguments = new Object[words.length - 4];
        for (int i = 0; i < arguments.length; i++) {
            arguments[i] = argument(words[4 + i]);
        }
        double least = Double.MAX_VALUE;
        for (int i = 0; i < ROUNDS; i++) {
            least = Math.min(least, round(processor, count, key, value, arguments));
        }
        System.out.printf("run at least %.1f ns%n", least);
    }
}
