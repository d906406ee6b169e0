package jentry.jcache.stream;

import static org.junit.jupiter.api.Assertions.assertEquals;
import static org.junit.jupiter.api.Assertions.assertThrows;
import static org.junit.jupiter.api.Assertions.assertTrue;

import java.io.IOException;
import java.util.concurrent.CountDownLatch;
import javax.cache.CacheException;
import jentry.jcache.StandIn;
import jentry.jcache.Team;
import org.junit.jupiter.api.Test;
import org.junit.jupiter.api.Timeout;

/** Tests the outcome of a leader's own call if the next round can't be sent, and of the calls of that round. */
@Timeout(600)
class LeadTest {
    /** A transport that replies Done to one put and ends the round once it is released; the second round can't be written. */
    private static final class OneRound implements Transport {
        final CountDownLatch written = new CountDownLatch(1), go = new CountDownLatch(1);
        private final byte[] told = StandIn.join(StandIn.frame(3), StandIn.END);
        private int writes;

        @Override public void write(byte[] text, int count) throws IOException {
            if (++writes > 1) {
                throw new IOException("no second round");
            }
            written.countDown();
        }

        @Override public int read(byte[] to, int from, int count) throws IOException {
            try {
                go.await();
            } catch (InterruptedException e) {
                throw new IOException(e);
            }
            System.arraycopy(told, 0, to, from, told.length);
            return told.length;
        }

        @Override public boolean isEnded() {
            return false;
        }

        @Override public String lastWords() {
            return "";
        }

        @Override public void close() { }

        @Override public void cut() { }
    }

    private static void put(Line line) {
        line.make(new Calls.One(new Wire.Out(21).putEntry(1, 1), Wire.DONE, "put"));
    }

    @Test void aLeaderHasItsReplyWhereTheNextRoundCannotBeSent() throws Exception {
        OneRound transport = new OneRound();
        Line line = new Line(transport, 100, 0);
        Team leader = Team.of(1, t -> put(line));
        transport.written.await();
        Team others = Team.of(5, t -> {
            String message = assertThrows(CacheException.class, () -> put(line)).getMessage();
            assertTrue(message.endsWith("whether this call has run is not known"), message);
        });
        while (line.waiting() < 5) {
            Thread.sleep(1);
        }
        transport.go.countDown();
        leader.join();
        others.join();
        assertEquals(2, line.rounds());
        String message = assertThrows(CacheException.class, () -> put(line)).getMessage();
        assertTrue(message.endsWith("this call was not sent"), message);
        line.close();
    }
}
