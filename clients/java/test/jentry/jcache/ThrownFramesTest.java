package jentry.jcache;

import static org.junit.jupiter.api.Assertions.assertEquals;
import static org.junit.jupiter.api.Assertions.assertNull;
import static org.junit.jupiter.api.Assertions.assertSame;
import static org.junit.jupiter.api.Assertions.assertThrows;

import java.io.IOException;
import java.io.InputStream;
import java.util.ArrayList;
import java.util.HashMap;
import java.util.List;
import java.util.Map;
import java.util.Set;
import java.util.concurrent.CompletionException;
import javax.cache.Cache;
import javax.cache.processor.EntryProcessorException;
import javax.cache.processor.EntryProcessorResult;
import jentry.jcache.stream.Wire;
import org.junit.jupiter.api.Test;
import org.junit.jupiter.api.Timeout;

/** Tests that replies with an exception of the processor are read, with the bytes that a server sends. */
@Timeout(600)
class ThrownFramesTest {
    private static final int NEW = 0xBB, DUP = 0x59, LDC = 0x12, LDC_W = 0x13, INVOKESPECIAL = 0xB7, ATHROW = 0xBF;
    private static final int THROWN = 3;

    /** Returns the indexes of the texts in the throws of {@link Throwing}, in their order; 0 is no text. They are read from the instructions. */
    private static List<Integer> indexes() throws IOException {
        byte[] file;
        try (InputStream in = Throwing.class.getResourceAsStream("Throwing.class")) {
            file = in.readAllBytes();
        }
        List<Integer> found = new ArrayList<>();
        for (int i = 0; i + 9 < file.length; i++) {
            int[] at = new int[10];
            for (int n = 0; n < at.length; n++) {
                at[n] = file[i + n] & 0xFF;
            }
            if (at[0] != NEW || at[3] != DUP) {
                continue;
            } else if (at[4] == LDC && at[6] == INVOKESPECIAL && at[9] == ATHROW) {
                found.add(at[5]);
            } else if (at[4] == LDC_W && at[7] == INVOKESPECIAL) {
                found.add(at[5] << 8 | at[6]);
            } else if (at[4] == INVOKESPECIAL && at[7] == ATHROW) {
                found.add(0);
            }
        }
        return found;
    }

    /** Returns the index of the text of each exception. */
    private static Map<Thrown, Integer> texts() throws IOException {
        List<Integer> indexes = indexes();
        assertEquals(Thrown.ALL.size() + 1, indexes.size(), "a throw each, and one of a large number");
        Map<Thrown, Integer> texts = new HashMap<>();
        Thrown.ALL.forEach(it -> texts.put(it, indexes.get(1 + Thrown.ALL.indexOf(it))));
        return texts;
    }

    /** A server that answers the first request correctly, which is the definition of the class, and the others with these bytes. */
    private static StandIn telling(byte[] frame) throws IOException {
        return StandIn.unix((it, round, requests) -> requests.get(0)[0] == Wire.DEFINE ? it.right(requests) : StandIn.join(frame, StandIn.END));
    }

    private static byte[] result(int number, int text) {
        return StandIn.frame(6, THROWN, number, text >> 8, text);
    }

    private static byte[] results(int number, int text) {
        return StandIn.frame(7, 0, 1, 0, 0, 0, 0, 0, 0, 0, 1, THROWN, number, text >> 8, text);
    }

    @Test void eachExceptionHasItsClassAndText() throws IOException {
        for (Map.Entry<Thrown, Integer> it : texts().entrySet()) {
            Thrown thrown = it.getKey();
            assertEquals(thrown.text() == null, it.getValue() == 0);
            try (StandIn server = telling(result(thrown.number(), it.getValue()))) {
                Cache<Long, Long> cache = server.cache();
                thrown.isThrownBy(() -> cache.invoke(1L, new Throwing(), thrown.argument()));
            }
            try (StandIn server = telling(results(thrown.number(), it.getValue()))) {
                EntryProcessorResult<Long> told = server.cache().invokeAll(Set.of(1L), new Throwing(), thrown.argument()).get(1L);
                thrown.isThrownBy(told::get);
            }
        }
    }

    private static Throwable asyncly(byte[] frame) throws IOException {
        try (StandIn server = telling(frame)) {
            JentryCache cache = server.cache().unwrap(JentryCache.class);
            return assertThrows(CompletionException.class, () -> cache.invokeAsync(1L, new Throwing(), 9L).join()).getCause();
        }
    }

    @Test void futuresHaveThem() throws IOException {
        Map<Thrown, Integer> texts = texts();
        for (Thrown it : texts.keySet()) {
            it.is(asyncly(result(it.number(), texts.get(it))));
        }
    }

    /** What no server should send: another exception than a processor can throw, and an index that isn't that of a text. */
    @Test void repliesThatNoProcessorCauses() throws IOException {
        int text = texts().get(Thrown.ALL.get(0));
        try (StandIn server = telling(result(200, text))) {
            Cache<Long, Long> cache = server.cache();
            Throwable cause = assertThrows(EntryProcessorException.class, () -> cache.invoke(1L, new Throwing(), 1L)).getCause();
            assertEquals("exception 200 " + Throwing.ARITHMETIC, cause.getMessage());
        }
        for (int index : new int[] {text + 1, 1, 0xFFFF, 0x7FFF}) {
            try (StandIn server = telling(result(9, index))) {
                Cache<Long, Long> cache = server.cache();
                Throwable cause = assertThrows(EntryProcessorException.class, () -> cache.invoke(1L, new Throwing(), 1L)).getCause();
                assertSame(IllegalStateException.class, cause.getClass());
                assertNull(cause.getMessage(), "no text has the index " + index);
            }
        }
    }

    @Test void aReplyThatIsCutOffEndsTheStream() throws IOException {
        for (byte[] wrong : List.of(StandIn.frame(6, THROWN, 9, 0), StandIn.frame(6, THROWN, 9, 0, 0, 0), StandIn.frame(6, 4, 9, 0, 0))) {
            try (StandIn server = telling(wrong)) {
                Cache<Long, Long> cache = server.cache();
                assertThrows(CallOutcomeUnknownException.class, () -> cache.invoke(1L, new Throwing(), 9L));
            }
        }
    }
}
