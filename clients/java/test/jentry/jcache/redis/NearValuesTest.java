package jentry.jcache.redis;

import static org.junit.jupiter.api.Assertions.assertEquals;
import static org.junit.jupiter.api.Assertions.assertNull;
import static org.junit.jupiter.api.Assertions.assertTrue;

import java.util.concurrent.atomic.AtomicBoolean;
import org.junit.jupiter.api.Test;

/** Tests which values a near cache keeps and returns. */
class NearValuesTest {
    private static final NearValues.Source TRUSTED = now -> true;

    private final NearValues near = new NearValues(4);

    private static void read(NearValues near, long key, Long value, Long until) {
        near.end(near.begin(key), value, until, TRUSTED);
    }

    private void read(long key, long value) {
        read(near, key, value, null);
    }

    @Test void aValueThatWasReadIsKept() {
        assertNull(near.get(1, 0));
        read(1, 5);
        assertEquals(5L, near.get(1, 0));
        assertNull(near.get(2, 0));
        read(near, 2, null, null);
        assertNull(near.get(2, 0), "that there is no entry isn't kept");
    }

    @Test void aChangeDropsItsValueOnly() {
        read(1, 5);
        read(2, 6);
        near.changed(1);
        near.changed(3);
        assertNull(near.get(1, 0));
        assertEquals(6L, near.get(2, 0));
    }

    @Test void aReadThatAChangeOvertakesKeepsNothing() {
        NearValues.Read first = near.begin(1), other = near.begin(2);
        near.changed(1);
        NearValues.Read later = near.begin(1);
        near.end(first, 5L, null, TRUSTED);
        assertNull(near.get(1, 0));
        near.end(later, 6L, null, TRUSTED);
        near.end(other, 7L, null, TRUSTED);
        assertEquals(6L, near.get(1, 0));
        assertEquals(7L, near.get(2, 0));
    }

    @Test void duringAWriteNothingIsKeptOrReturned() {
        read(1, 5);
        NearValues.Read before = near.begin(1);
        near.beginWrite(1);
        assertNull(near.get(1, 0));
        near.beginWrite(1);
        read(1, 5);
        assertNull(near.get(1, 0), "read during the write");
        NearValues.Read during = near.begin(1);
        near.endWrite(1);
        read(1, 5);
        assertNull(near.get(1, 0), "another write is out");
        near.endWrite(1);
        near.end(before, 5L, null, TRUSTED);
        near.end(during, 5L, null, TRUSTED);
        assertNull(near.get(1, 0), "read before the write had ended");
        read(1, 6);
        assertEquals(6L, near.get(1, 0));
    }

    @Test void anEntryThatExpiresIsReturnedUntilThen() {
        read(near, 1, 5L, Long.MAX_VALUE);
        assertEquals(5L, near.get(1, Long.MAX_VALUE - 1));
        assertNull(near.get(1, Long.MAX_VALUE));
        assertEquals(0, near.size());
        read(near, 1, 5L, Long.MIN_VALUE + 1);
        assertEquals(5L, near.get(1, Long.MAX_VALUE), "the clock may pass over its greatest number");
        assertNull(near.get(1, Long.MIN_VALUE + 1));
    }

    @Test void aSourceIsAskedEachTimeAndItsLossDropsItsValues() {
        AtomicBoolean isTrusted = new AtomicBoolean(true);
        NearValues.Source source = now -> isTrusted.get();
        near.end(near.begin(1), 5L, null, source);
        read(2, 6);
        isTrusted.set(false);
        assertNull(near.get(1, 0));
        isTrusted.set(true);
        assertEquals(5L, near.get(1, 0), "the messages have come");
        NearValues.Read out = near.begin(3);
        near.lost(source);
        near.end(out, 7L, null, source);
        assertNull(near.get(1, 0));
        assertNull(near.get(3, 0), "read before the loss");
        assertEquals(6L, near.get(2, 0));
        near.clear();
        assertEquals(0, near.size());
    }

    @Test void theLeastRecentlyUsedIsDroppedFirst() {
        for (long key = 0; key < 4; key++) {
            read(key, key);
        }
        assertEquals(0L, near.get(0, 0));
        read(4, 4);
        assertEquals(4, near.size());
        assertEquals(0L, near.get(0, 0));
        assertNull(near.get(1, 0));
    }

    @Test void itIsBoundedInEntries() {
        for (int most : new int[] {1, 2, 63, 64, 1_000, 10_000}) {
            NearValues values = new NearValues(most);
            for (long key = 0; key < 3L * most; key++) {
                read(values, key, key, null);
            }
            assertTrue(values.size() <= most, most + ": " + values.size());
            assertTrue(values.size() >= most * 3 / 4, most + ": " + values.size());
        }
    }
}
