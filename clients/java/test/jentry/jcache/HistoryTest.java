package jentry.jcache;

import static org.junit.jupiter.api.Assertions.assertFalse;
import static org.junit.jupiter.api.Assertions.assertTrue;

import java.util.concurrent.ConcurrentHashMap;
import java.util.concurrent.ConcurrentMap;
import java.util.concurrent.ThreadLocalRandom;
import org.junit.jupiter.api.Test;

/** Tests the check of histories: it accepts those of a ConcurrentHashMap, and rejects made-up ones that it never produces. */
class HistoryTest {
    private static final History.Method[] METHODS = History.Method.values();

    private static boolean isAllowed(Object[]... calls) {
        History history = new History();
        for (Object[] it : calls) {
            history.told((History.Method) it[0], (int) it[1], (int) it[2], it[3], (int) it[4], (int) it[5]);
        }
        return history.isAllowed();
    }

    private static Object[] call(Object... words) {
        return words;
    }

    @Test void theOrderOfCallsThatOverlapIsFree() {
        Object[] put = call(History.Method.PUT, 0, 5, null, 1, 4);
        assertTrue(isAllowed(put, call(History.Method.GET, 0, 0, 5L, 2, 3)));
        assertTrue(isAllowed(put, call(History.Method.GET, 0, 0, null, 2, 3)));
        assertTrue(isAllowed(call(History.Method.GET_AND_PUT, 0, 1, 2L, 1, 6), call(History.Method.GET_AND_PUT, 0, 2, null, 2, 5), call(History.Method.GET, 0, 0, 1L, 7, 8)));
    }

    @Test void whatNoOrderTellsIsNotAllowed() {
        assertFalse(isAllowed(call(History.Method.PUT, 0, 5, null, 1, 2), call(History.Method.GET, 0, 0, null, 3, 4)), "an old value");
        assertFalse(isAllowed(call(History.Method.PUT_IF_ABSENT, 0, 5, true, 1, 4), call(History.Method.PUT_IF_ABSENT, 0, 6, true, 2, 3)), "both were first");
        assertFalse(isAllowed(call(History.Method.PUT, 0, 0, null, 1, 2), call(History.Method.REPLACE_IF, 0, 1, true, 3, 6), call(History.Method.REPLACE_IF, 0, 1, true, 4, 5)),
            "both replaced one value");
        assertFalse(isAllowed(call(History.Method.GET_AND_PUT, 0, 1, 2L, 1, 4), call(History.Method.GET_AND_PUT, 0, 2, 1L, 2, 3)), "each was before the other");
        assertFalse(isAllowed(call(History.Method.PUT, 0, 1, null, 1, 2), call(History.Method.GET_AND_REMOVE, 0, 0, 1L, 3, 6), call(History.Method.REMOVE_IF, 1, 0, true, 4, 5)),
            "one entry was taken twice");
    }

    @Test void aMapsOwnHistoriesAreAllowed() throws InterruptedException {
        for (int n = 0; n < 50; n++) {
            ConcurrentMap<Long, Long> map = new ConcurrentHashMap<>();
            History history = new History();
            Team.of(6, t -> {
                for (int i = 0; i < 5; i++) {
                    History.Method method = METHODS[ThreadLocalRandom.current().nextInt(METHODS.length)];
                    long old = ThreadLocalRandom.current().nextLong(3), value = ThreadLocalRandom.current().nextLong(3);
                    history.call(method, old, value, () -> method.onMap.call(map, old, value));
                }
            }).join();
            assertTrue(history.isAllowed(), history::toString);
        }
    }
}
