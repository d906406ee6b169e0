package jentry.jcache;

import static org.junit.jupiter.api.Assertions.assertEquals;
import static org.junit.jupiter.api.Assertions.assertThrows;
import static org.junit.jupiter.api.Assertions.assertTrue;
import static org.junit.jupiter.api.Assumptions.assumeTrue;

import java.util.HashMap;
import java.util.List;
import java.util.Map;
import java.util.Set;
import java.util.concurrent.CompletionException;
import javax.cache.Cache;
import javax.cache.CacheException;
import javax.cache.processor.EntryProcessor;
import javax.cache.processor.EntryProcessorResult;
import javax.cache.processor.MutableEntry;
import org.junit.jupiter.api.BeforeEach;
import org.junit.jupiter.api.Test;

/** Tests processors that are compiled before they are sent, on the real server. The jar of jentry-compile is on the class path. */
class CompilingTest extends OnServer {
    private static final EntryProcessor<Long, Long, Long> ADDS_TWO = (entry, arguments) -> entry.getKey() + 2;
    private static final EntryProcessor<Long, Long, Long> ADDS_THREE = (entry, arguments) -> entry.getKey() + 3;

    /** Lambdas that this class passes to the cache. */
    private static final class Processors {
        static final EntryProcessor<Long, Long, Long> FOUR = (entry, arguments) -> 4L;
        static final EntryProcessor<Long, Long, Long> FIVE = (entry, arguments) -> 5L;
    }

    @BeforeEach void compilerIsThere() {
        boolean isThere = true;
        try {
            Class.forName("jentry.compiler.runtime.LoadedProcessors");
        } catch (ClassNotFoundException e) {
            isThere = false;
        }
        assumeTrue(isThere, "there is no jentry-compile.jar: apt-get install libasm-java, then clients/compiler/build");
    }

    @Test void aLambdaWithALoop() {
        Long sum = cache.invoke(k, (e, a) -> { long s = 0; for (Object x : a) { s += (Long) x; } e.setValue(s); return s; }, 1L, 2L, 3L);
        assertEquals(6L, sum);
        assertEquals(6L, cache.get(k));
        Long bits = cache.invoke(k, (e, a) -> {
            long count = 0;
            for (long rest = (Long) a[0], i = 0; i < 64; i++, rest >>>= 1) {
                count += rest & 1;
            }
            return count;
        }, 0xF0L);
        assertEquals(4L, bits);
        Long two = cache.invoke(k, ADDS_TWO);
        assertEquals(k + 2, two);
    }

    @Test void aLambdaIsTheOneThatIsHandedOver() {
        assertEquals(5L, cache.invoke(k, Processors.FIVE));
        assertEquals(4L, cache.invoke(k, Processors.FOUR));
        for (EntryProcessor<Long, Long, Long> held : List.of(ADDS_THREE)) {
            String message = assertThrows(CacheException.class, () -> cache.invoke(k, held)).getMessage();
            assertTrue(message.contains("it can't be seen which of its lambdas this one is"), message);
        }
        assertEquals(k + 3, cache.invoke(k, ADDS_THREE), "another call says which one it is");
        for (EntryProcessor<Long, Long, Long> held : List.of(ADDS_THREE)) {
            assertEquals(k + 3, cache.invoke(k, held), "it is known now");
        }
        assertEquals(Map.of(k, 4L), results(cache.invokeAll(Set.of(k), Processors.FOUR)));
    }

    private static Map<Long, Long> results(Map<Long, EntryProcessorResult<Long>> of) {
        Map<Long, Long> all = new HashMap<>();
        of.forEach((key, result) -> all.put(key, result.get()));
        return all;
    }

    /** Counts the digits of its argument; compiled for the Java version of the tests. */
    public static final class Digits implements EntryProcessor<Long, Long, Integer> {
        private static final long[] POWERS = {10, 100, 1_000, 10_000};

        @Override public Integer process(MutableEntry<Long, Long> entry, Object... arguments) {
            int digits = 1;
            for (long power : POWERS) {
                digits += Math.abs((Long) arguments[0]) >= power ? 1 : 0;
            }
            return digits;
        }
    }

    /** A loop without a counter that bounds it. */
    public static final class Endless implements EntryProcessor<Long, Long, Long> {
        @Override public Long process(MutableEntry<Long, Long> entry, Object... arguments) {
            long x = (Long) arguments[0];
            while (x != 1) {
                x = x % 2 == 0 ? x / 2 : 3 * x + 1;
            }
            return x - 1;
        }
    }

    @Test void aClassWithALoopAndATable() {
        assertEquals(3, cache.invoke(k, new Digits(), -999L));
        assertEquals(3, cache.invokeAll(server.keys(1, 4), new Digits(), 100L).size());
        assertEquals(2, server.own().invokeAsync(k, new Digits(), 99L).join());
    }

    private static void assertSaysWhy(ProcessorRefusedException e) {
        String name = Endless.class.getName();
        assertTrue(e.getMessage().startsWith(name + " can't be compiled: " + name + ".process, line "), "the true reason comes first: " + e.getMessage());
        assertTrue(e.getMessage().contains("no counter ends this loop"), e.getMessage());
        assertTrue(e.getMessage().endsWith(" (as it is, it is refused: 4 BadVersion)"), e.getMessage());
        assertTrue(e.remedy().contains("no counter ends this loop"), e.remedy());
        assertEquals(e.number(), ((ProcessorRefusedException) e.getCause()).number());
    }

    @Test void whatTheCompilerSaysOfARefusal() {
        for (int i = 0; i < 2; i++) {
            assertSaysWhy(assertThrows(ProcessorRefusedException.class, () -> cache.invoke(k, new Endless(), 9L)));
        }
        assertSaysWhy(assertThrows(ProcessorRefusedException.class, () -> cache.invokeAll(Set.of(k), new Endless(), 9L)));
        assertSaysWhy((ProcessorRefusedException) assertThrows(CompletionException.class,
            () -> server.own().invokeAsync(k, new Endless(), 9L).join()).getCause());
    }

    private long rate = 3;

    private Long rated(MutableEntry<Long, Long> entry, Object... arguments) {
        return entry.getKey() * rate + arguments.length;
    }

    /** Each call sends what the processor holds at that time. */
    @Test void whatProcessorsHoldIsSentInFrontOfTheArguments() {
        for (long now = 1; now < 4; now++) {
            long by = now;
            EntryProcessor<Long, Long, Long> capturing = (entry, arguments) -> entry.getKey() + by + (Long) arguments[0];
            assertEquals(k + by + 10, cache.invoke(k, capturing, 10L));
            rate = by;
            EntryProcessor<Long, Long, Long> reference = this::rated;
            assertEquals(k * by + 2, cache.invoke(k, reference, 1L, null));
            assertEquals(Map.of(k, k * by), results(cache.invokeAll(Set.of(k), reference)));
            assertEquals(k * by + 1, server.own().invokeAsync(k, reference, 5).join());
            assertEquals(by, cache.invoke(k, Sample.capturing(by)));
            assertEquals(-by, cache.invoke(k, new Sample.HasState(-by)));
        }
    }

    @Test void atMostEightArgumentsAreSentInAll() {
        long by = k;
        EntryProcessor<Long, Long, Integer> counting = (entry, arguments) -> (int) (arguments.length + by - by);
        assertEquals(7, cache.invoke(k, counting, 1L, 2L, 3L, 4L, 5L, 6L, 7L));
        IllegalArgumentException e = assertThrows(IllegalArgumentException.class,
            () -> cache.invoke(k, counting, 1L, 2L, 3L, 4L, 5L, 6L, 7L, 8L));
        assertEquals("an invocation takes at most 8 arguments, and 1 of them are values that the processor holds (arg$1): 7 are left, not 8", e.getMessage());
    }

    /** Sums a table that it holds: the table is part of the compiled class. */
    public static final class Table implements EntryProcessor<Long, Long, Long> {
        private final long[] table;

        Table(long... table) {
            this.table = table;
        }

        @Override public Long process(MutableEntry<Long, Long> entry, Object... arguments) {
            long sum = 0;
            for (long one : table) {
                sum += one;
            }
            return sum;
        }
    }

    @Test void atMostSixteenClassesAreMadeOfOne() {
        Table written = new Table(1, 2);
        assertEquals(3, cache.invoke(k, written));
        written.table[1] = 9;
        assertEquals(10, cache.invoke(k, written), "the table as it is now");
        for (int size = 2; size < 16; size++) {
            assertEquals(0, cache.invoke(k, new Table(new long[size])));
            assertEquals(10, cache.invoke(k, new Table(1, 9)), "sent before");
        }
        ProcessorRefusedException e = assertThrows(ProcessorRefusedException.class, () -> cache.invoke(k, new Table(7)));
        assertTrue(e.getMessage().contains("16 processors with other values were sent before; hand what changes over as arguments"), e.getMessage());
        assertEquals(10, cache.invoke(k, new Table(1, 9)), "these are still there");
    }

    private static final class Holder implements EntryProcessor<Long, Long, Long> {
        private final Object value;

        Holder(Object value) {
            this.value = value;
        }

        @Override public Long process(MutableEntry<Long, Long> entry, Object... arguments) {
            return value instanceof Boolean ? (boolean) value ? 1L : 0L : (Long) value;
        }
    }

    private record Scaled(double factor) implements EntryProcessor<Long, Long, Long> {
        @Override public Long process(MutableEntry<Long, Long> entry, Object... arguments) {
            return (long) factor;
        }
    }

    @Test void whatCannotBePassedIsntSent() {
        assertEquals(5L, cache.invoke(k, new Holder(5L)));
        assertEquals(1L, cache.invoke(k, new Holder(true)));
        for (Object it : List.of("5", (short) 5)) {
            String message = assertThrows(CacheException.class, () -> cache.invoke(k, new Holder(it))).getMessage();
            assertEquals("the processor's field value holds a " + it.getClass().getName() + ", not a Long, an Integer, a Boolean or null", message);
        }
        String message = assertThrows(CacheException.class, () -> cache.invoke(k, new Scaled(2))).getMessage();
        assertTrue(message.contains("the processor holds the value of the field factor, which is of type double"), message);
    }

    @Test void whatCannotBeSentRunsHereWhereThatIsAllowed() {
        Cache<Long, Long> local = create(Server.types(), "jentry.local", "true");
        JentryCache own = local.unwrap(JentryCache.class);
        assertEquals(3, local.invoke(k, new Digits(), -999L));
        assertEquals(k + 2, local.invoke(k, ADDS_TWO));
        long by = k;
        EntryProcessor<Long, Long, Long> sendable = (entry, arguments) -> entry.getKey() + by;
        assertEquals(2 * k, local.invoke(k, sendable));
        assertEquals(Map.of(), own.localRuns(), "what is compiled runs at the server");
        double factor = 2;
        EntryProcessor<Long, Long, Long> capturing = (entry, arguments) -> entry.getKey() * (long) factor;
        for (int i = 0; i < 2; i++) {
            assertEquals(2 * k, local.invoke(k, capturing));
            assertEquals(0L, local.invoke(k, new Endless(), 9L));
        }
        assertEquals(2 * k, own.invokeAsync(k, capturing).join());
        assertEquals(0L, local.invokeAll(Set.of(k), new Endless(), 9L).get(k).get());
        assertEquals(Map.of(capturing.getClass().getName(), 3L, Endless.class.getName(), 3L), own.localRuns());
    }

    @Test void itCanBeSwitchedOff() {
        Cache<Long, Long> other = create(Server.types(), "jentry.compile", "false");
        assertEquals(4, assertThrows(ProcessorRefusedException.class, () -> other.invoke(k, new Digits(), 1L)).number());
        String message = assertThrows(CacheException.class, () -> other.invoke(k, ADDS_TWO)).getMessage();
        assertTrue(message.contains("has no class file; put jentry-compile.jar on the class path"), message);
        assertEquals(1, cache.invoke(k, new Digits(), 1L), "a cache of another manager isn't concerned");
    }
}
