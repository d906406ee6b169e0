package jentry.compiler;

import static org.junit.jupiter.api.Assertions.assertDoesNotThrow;
import static org.junit.jupiter.api.Assertions.assertEquals;
import static org.junit.jupiter.api.Assertions.assertFalse;
import static org.junit.jupiter.api.Assertions.assertNotNull;
import static org.junit.jupiter.api.Assertions.assertThrows;
import static org.junit.jupiter.api.Assertions.assertTrue;

import java.io.Serializable;
import java.util.List;
import javax.cache.Cache;
import javax.cache.processor.EntryProcessor;
import javax.cache.processor.MutableEntry;
import jentry.compiler.compare.ClassPath;
import jentry.compiler.runtime.Client;
import org.junit.jupiter.api.Test;
import org.junit.jupiter.api.function.Executable;

/** Tests processors of the running program: lambdas are found by the calls that pass them. */
class LoadedProcessorsTest {
    private static final EntryProcessor<Long, Long, Long> FIRST = (entry, arguments) -> entry.getKey() + 1;
    private static final EntryProcessor<Long, Long, Long> SECOND = (entry, arguments) -> entry.getKey() + 2;

    /** A subinterface of EntryProcessor. */
    private interface Own extends EntryProcessor<Long, Long, Long> { }

    /** Another one. */
    private interface OtherOwn extends EntryProcessor<Long, Long, Long> { }

    private static final Own OWN = (entry, arguments) -> entry.getKey() + 6;

    /** A class that passes lambdas of another class. */
    private static final class Helper {
        static Object answer(EntryProcessor<Long, Long, Long> processor) throws Exception {
            if (processor != null) {
                return Client.answer(Checks.PATH, processor);
            }
            return Client.answer(Checks.PATH, SECOND);
        }
    }

    /** Lambdas that other classes pass, and methods with the same names as methods of other classes. */
    private static final class Constants {
        static final EntryProcessor<Long, Long, Long> TEN = (entry, arguments) -> entry.getKey() + 10;
        static final EntryProcessor<Long, Long, Long> TWENTY = (entry, arguments) -> entry.getKey() + 20;
        static EntryProcessor<Long, Long, Long> thirty = (entry, arguments) -> entry.getKey() + 30;

        static Long doubled(MutableEntry<Long, Long> entry, Object... arguments) {
            return entry.getKey() * 2 + 1;
        }
    }

    /** One method as a processor of two types, and two lambdas of one type that can't be told apart. */
    private static final class Others {
        static final EntryProcessor<Long, Long, Long> REFERENCE = Constants::doubled;
        static final Own DOUBLED = Constants::doubled;
        static final List<OtherOwn> PAIR = List.of((entry, arguments) -> 8L, (entry, arguments) -> 9L);
    }

    /** The client's method through a method reference, which isn't in any stack frame. */
    private interface Way<P> {
        Object answer(ClassPath path, P processor, Object... arguments) throws Exception;
    }

    private static EntryProcessor<Long, Long, Long> made() {
        return (entry, arguments) -> entry.getKey() + 3;
    }

    private static Object handedOn(EntryProcessor<Long, Long, ?> processor) throws Exception {
        return Client.answer(Checks.PATH, processor);
    }

    @Test
    void aLambdaWhereItIsWritten() throws Exception {
        assertEquals(106L, Client.answer(Checks.PATH, (entry, arguments) -> {
            long s = entry.getKey();
            for (Object x : arguments) {
                s += (Long) x;
            }
            return s;
        }, 1L, 2L, 3L));
        assertEquals(99L, Client.answer(Checks.PATH, (entry, arguments) -> entry.getKey() - 1));
    }

    @Test
    void aLambdaOfALocalOrAField() throws Exception {
        EntryProcessor<Long, Long, Long> local = (entry, arguments) -> entry.getKey() + 4;
        assertEquals(104L, Client.answer(Checks.PATH, local));
        assertEquals(101L, Client.answer(Checks.PATH, FIRST));
        assertEquals(102L, Client.answer(Checks.PATH, SECOND));
    }

    private static Long doubled(MutableEntry<Long, Long> entry, Object[] arguments) {
        return entry.getKey() * 2;
    }

    private static Long named(MutableEntry<String, Long> entry, Object... arguments) {
        return 1L;
    }

    private static Long named(Cache.Entry<Long, Long> entry, Object... arguments) {
        return entry.getKey() * 3;
    }

    @Test
    void referencesToMethodsOfOneName() throws Exception {
        EntryProcessor<String, Long, Long> other = LoadedProcessorsTest::named;
        assertEquals(300L, Client.answer(Checks.PATH, LoadedProcessorsTest::named));
        assertEquals(300L, Client.answer(Checks.PATH, (EntryProcessor<Long, Long, Long> & Serializable) LoadedProcessorsTest::named));
        assertNotNull(other);
    }

    @Test
    void aReferenceToAMethodOfAnotherClassIsNoneOfThisClass() throws Exception {
        assertEquals(201L, Client.answer(Checks.PATH, (EntryProcessor<Long, Long, Long> & Serializable) Constants::doubled));
        assertEquals(200L, Client.answer(Checks.PATH, (EntryProcessor<Long, Long, Long> & Serializable) LoadedProcessorsTest::doubled));
    }

    @Test
    void constantsOfAnotherClass() throws Exception {
        assertEquals(110L, Client.answer(Checks.PATH, Constants.TEN));
        assertEquals(120L, Client.answer(Checks.PATH, Constants.TWENTY));
        assertEquals(102L, Helper.answer(null));
        assertUnknown(() -> Client.answer(Checks.PATH, Constants.thirty));
    }

    private static EntryProcessor<Long, Long, Long> theOther(EntryProcessor<Long, Long, Long> one) {
        return one == FIRST ? SECOND : FIRST;
    }

    @Test
    void whatAnotherCallOnTheLineTakesIsntHandedOver() {
        Way<EntryProcessor<Long, Long, Long>> way = Client::answer;
        assertUnknown(() -> way.answer(Checks.PATH, theOther(FIRST)));
        assertUnknown(() -> Client.answer(Checks.PATH, theOther(FIRST)));
        assertUnknown(() -> assertEquals(Client.answer(Checks.PATH, FIRST), Client.answer(Checks.PATH, SECOND)));
        assertUnknown(() -> Client.answer(Checks.PATH, Math.random() < 2 ? FIRST : SECOND));
    }

    @Test
    void lambdasInLoopsTernariesAndLists() throws Exception {
        EntryProcessor<Long, Long, Long> last = FIRST;
        for (int i = 0; i < 2; i++) {
            EntryProcessor<Long, Long, Long> now = last;
            assertEquals(107L, Client.answer(Checks.PATH, (entry, arguments) -> entry.getKey() + 7));
            assertUnknown(() -> Client.answer(Checks.PATH, now));
            last = SECOND;
        }
        for (EntryProcessor<Long, Long, Long> it : List.of(FIRST, SECOND)) {
            assertUnknown(() -> Client.answer(Checks.PATH, it));
        }
        CompileException e = assertThrows(CompileException.class, () -> answerOneOfTwo(true));
        assertTrue(e.getMessage().contains("it can't be seen which of its lambdas this one is: lambda$answerOneOfTwo$"), e.getMessage());
    }

    @Test
    void aCallThatIsWrittenTwice() throws Exception {
        for (boolean throwsIt : new boolean[] {false, true}) {
            Object[] answer = new Object[1];
            Executable call = () -> {
                try {
                    assertFalse(throwsIt);
                } finally {
                    answer[0] = Client.answer(Checks.PATH, (entry, arguments) -> entry.getKey() + 50);
                }
            };
            if (throwsIt) {
                assertThrows(AssertionError.class, call);
            } else {
                assertDoesNotThrow(call);
            }
            assertEquals(150L, answer[0]);
        }
    }

    private static Object answerOneOfTwo(boolean isFirst) throws Exception {
        return Client.answer(Checks.PATH, isFirst ? (entry, arguments) -> entry.getKey() + 8 : (entry, arguments) -> entry.getKey() + 9);
    }

    @Test
    void aReferenceToAStaticMethod() throws Exception {
        assertEquals(200L, Client.answer(Checks.PATH, LoadedProcessorsTest::doubled));
    }

    @Test
    void aSerializableLambdaSaysItself() throws Exception {
        Object[] held = {(EntryProcessor<Long, Long, Long> & Serializable) (entry, arguments) -> entry.getKey() + 5};
        @SuppressWarnings("unchecked")
        EntryProcessor<Long, Long, Long> unknown = (EntryProcessor<Long, Long, Long>) held[0];
        assertEquals(105L, Client.answer(Checks.PATH, unknown));
    }

    @Test
    void oneThatCantBeToldApart() {
        Object[] held = {made()};
        @SuppressWarnings("unchecked")
        EntryProcessor<Long, Long, Long> unknown = (EntryProcessor<Long, Long, Long>) held[0];
        assertUnknown(() -> Client.answer(Checks.PATH, unknown));
        assertUnknown(() -> Client.answer(Checks.PATH, made()));
        assertUnknown(() -> handedOn(FIRST));
        assertUnknown(() -> Helper.answer((entry, arguments) -> entry.getKey()));
        assertUnknown(() -> Helper.answer(FIRST));
    }

    private static void assertUnknown(Executable call) {
        CompileException e = assertThrows(CompileException.class, call);
        assertTrue(e.getMessage().contains("it can't be seen which of its lambdas this one is"), e.getMessage());
    }

    @Test
    void oneOfAnotherType() throws Exception {
        assertEquals(106L, Client.answer(Checks.PATH, OWN));
        assertEquals(107L, Client.answer(Checks.PATH, (Own & Serializable) (entry, arguments) -> entry.getKey() + 7));
        assertEquals(201L, Client.answer(Checks.PATH, Others.REFERENCE));
        assertEquals(201L, Client.answer(Checks.PATH, Others.DOUBLED));
        assertUnknown(() -> Client.answer(Checks.PATH, Others.PAIR.get(1)));
    }

    private long rate = 7;

    private Long rated(MutableEntry<Long, Long> entry, Object... arguments) {
        return entry.getKey() * rate;
    }

    @Test
    void whatLambdasCapture() throws Exception {
        for (long by = 1; by < 4; by++) {
            long now = by;
            int shift = (int) by;
            EntryProcessor<Long, Long, Long> two = (entry, arguments) -> (entry.getKey() << shift) + now;
            assertEquals((100L << shift) + now, Client.answer(Checks.PATH, two));
            assertEquals(100 + now, Client.answer(Checks.PATH, (entry, arguments) -> entry.getKey() + now));
            assertEquals(100 - now, Client.answer(Checks.PATH, (EntryProcessor<Long, Long, Long> & Serializable) (entry, arguments) -> entry.getKey() - now));
            rate = by;
            assertEquals(100 + now, Client.answer(Checks.PATH, (entry, arguments) -> entry.getKey() + rate));
            assertEquals(100 * now, Client.answer(Checks.PATH, this::rated));
        }
    }

    /** A lambda that captures a Long isn't the one that captures a long, also where the call doesn't show it. */
    @Test
    void lambdasAreToldApartByWhatTheyCapture() throws Exception {
        List<EntryProcessor<Long, Long, Long>> held = Boxes.held(5, 6L);
        assertEquals(1_005L, Client.answer(Checks.PATH, held.get(0)));
        assertEquals(2_006L, Client.answer(Checks.PATH, held.get(1)));
    }

    /** Lambdas that capture a long and a Long. */
    private static final class Boxes {
        static List<EntryProcessor<Long, Long, Long>> held(long number, Long box) {
            return List.of((entry, arguments) -> number + 1_000, (entry, arguments) -> box + 2_000);
        }
    }

    /** Sums a number of arguments, and values of a table. */
    public static final class Window implements EntryProcessor<Long, Long, Long> {
        private final int size;
        private final long[] weights;

        Window(int size, long... weights) {
            this.size = size;
            this.weights = weights;
        }

        @Override
        public Long process(MutableEntry<Long, Long> entry, Object... arguments) {
            long sum = arguments.length;
            for (int i = 0; i < size; i++) {
                sum += i * entry.getKey();
            }
            for (long weight : weights) {
                sum += weight;
            }
            return sum;
        }
    }

    /** A loop up to a value that the processor holds is bounded where the value becomes a constant; so is one over an array that it holds. */
    @Test
    void valuesThatBecomeConstants() throws Exception {
        assertEquals(606L, Client.answer(Checks.PATH, new Window(4, 1, 2, 3)));
        assertEquals(10_003L, Client.answer(Checks.PATH, new Window(15, -500), 1L, 2L, 3L));
        assertEquals(0L, Client.answer(Checks.PATH, new Window(0)));
        Object[] prepared = jentry.compiler.runtime.LoadedProcessors.prepare(new Window(4, 1, 2, 3));
        @SuppressWarnings("unchecked")
        java.util.function.Predicate<Object> isFor = (java.util.function.Predicate<Object>) prepared[2];
        assertTrue(isFor.test(new Window(4, 1, 2, 3)));
        assertFalse(isFor.test(new Window(5, 1, 2, 3)));
        assertFalse(isFor.test(new Window(4, 1, 2, 4)));
    }

    /** A class with a loop. */
    public static final class Loops implements EntryProcessor<Long, Long, Long> {
        @Override
        public Long process(MutableEntry<Long, Long> entry, Object... arguments) {
            long s = 0;
            for (int i = 0; i < 4; i++) {
                s += entry.getKey();
            }
            return s;
        }
    }

    @Test
    void aClass() throws Exception {
        assertEquals(400L, Client.answer(Checks.PATH, new Loops()));
    }
}
