package jentry.jcache.redis;

import static org.junit.jupiter.api.Assertions.assertArrayEquals;
import static org.junit.jupiter.api.Assertions.assertEquals;
import static org.junit.jupiter.api.Assertions.assertThrows;
import static org.junit.jupiter.api.Assertions.assertTrue;

import java.io.BufferedInputStream;
import java.io.IOException;
import java.io.InputStream;
import java.io.OutputStream;
import java.net.InetAddress;
import java.net.ServerSocket;
import java.net.Socket;
import java.net.URI;
import java.nio.charset.StandardCharsets;
import java.util.Arrays;
import java.util.Properties;
import java.util.Random;
import java.util.concurrent.Semaphore;
import java.util.concurrent.atomic.AtomicBoolean;
import java.util.concurrent.atomic.AtomicInteger;
import java.util.function.BooleanSupplier;
import jentry.jcache.CallNotSentException;
import jentry.jcache.CallOutcomeUnknownException;
import jentry.jcache.Team;
import jentry.jcache.impl.Options;
import org.junit.jupiter.api.AfterEach;
import org.junit.jupiter.api.BeforeEach;
import org.junit.jupiter.api.Test;
import org.junit.jupiter.api.Timeout;

/** Tests who reads the replies of a connection, with a stand-in for Redis that replies to {@code ECHO NUMBER}. */
@Timeout(600)
class ConnectionTest {
    private static final long MOST_TIMEOUT = 20_000;

    /** Replies as long as it has a permit for each. */
    private final Semaphore permits = new Semaphore(1_000_000);
    private ServerSocket listener;
    private Socket accepted;
    private RedisConnection connection;

    @BeforeEach void connect() throws IOException {
        connect(300_000);
    }

    /** Connects with a short timeout: twice as long where the machine was too busy for the first replies within it, and so on. */
    private void connectWithAShortTimeout(long millis) throws IOException {
        for (long timeout = millis;; timeout *= 2) {
            try {
                connect(timeout);
                return;
            } catch (CallOutcomeUnknownException e) {
                assertTrue(timeout < MOST_TIMEOUT, e.getMessage());
            }
        }
    }

    /** Connects, and makes calls until the callers read their own replies. */
    private void connect(long timeout) throws IOException {
        close();
        listener = new ServerSocket(0, 5, InetAddress.getLoopbackAddress());
        Properties properties = new Properties();
        properties.setProperty("jentry.timeout", "" + timeout);
        String node = "127.0.0.1:" + listener.getLocalPort();
        Thread thread = new Thread(this::serve);
        thread.setDaemon(true);
        thread.start();
        connection = new RedisConnection(node, new Options(URI.create("jentry+redis://" + node), properties));
        for (long i = 0; i < 10; i++) {
            assertEquals(i, echo(i));
        }
    }

    @AfterEach void close() throws IOException {
        permits.release(1_000);
        if (connection != null) {
            connection.close();
            listener.close();
        }
    }

    private void serve() {
        try (Socket socket = listener.accept()) {
            accepted = socket;
            InputStream in = new BufferedInputStream(socket.getInputStream());
            OutputStream out = socket.getOutputStream();
            for (String line = line(in); !line.isEmpty(); line = line(in)) {
                for (int i = 0; i < 3; i++) {
                    line(in);
                }
                String number = line(in);
                permits.acquire();
                out.write((":" + number + "\r\n").getBytes(StandardCharsets.US_ASCII));
            }
        } catch (IOException | InterruptedException e) {
            // The test has ended.
        }
    }

    private static String line(InputStream in) throws IOException {
        StringBuilder text = new StringBuilder();
        for (int c = in.read(); c >= 0 && c != '\n'; c = in.read()) {
            text.append(c == '\r' ? "" : (char) c);
        }
        return text.toString();
    }

    private static Resp.Commands command(long number) {
        return new Resp.Commands().add("ECHO", number);
    }

    private long echo(long number) {
        RedisConnection.Call call = new RedisConnection.Call(command(number));
        connection.submit(call);
        return (Long) call.await()[0];
    }

    private static void await(BooleanSupplier holds, String otherwise) throws InterruptedException {
        for (int i = 0; !holds.getAsBoolean(); i++) {
            assertTrue(i < 20_000, otherwise);
            Thread.sleep(1);
        }
    }

    private static boolean isIn(Thread thread, String method) {
        return Arrays.stream(thread.getStackTrace()).anyMatch(it -> it.getMethodName().equals(method));
    }

    /** Where the machine is so busy that calls come slowly, the reader thread takes some replies, so the test looks at many calls. */
    @Test void aCallerThatIsAloneReadsItsOwnReply() throws Exception {
        permits.drainPermits();
        AtomicBoolean isOver = new AtomicBoolean();
        Team lone = Team.of(1, t -> {
            for (long i = 0; !isOver.get(); i++) {
                assertEquals(i, echo(i));
            }
        });
        Thread caller = lone.threads().get(0);
        int seen = 0;
        for (int calls = 0; seen < 5; calls++) {
            assertTrue(calls < 2_000 && caller.isAlive(), seen + " of " + calls + " replies were read by the caller");
            await(() -> connection.pending() == 1, "no call is out");
            for (int looks = 0; looks < 5 && !isIn(caller, "readFor"); looks++) {
                Thread.sleep(1);
            }
            seen += isIn(caller, "readFor") ? 1 : 0;
            permits.release();
        }
        isOver.set(true);
        permits.release();
        lone.join();
    }

    @Test void whoWaitsBesideItIsAnsweredToo() throws Exception {
        permits.drainPermits();
        Team first = Team.of(1, t -> assertEquals(1L, echo(1)));
        await(() -> connection.pending() == 1, "no call is out");
        Team others = Team.of(5, t -> assertEquals(10L + t, echo(10L + t)));
        await(() -> connection.pending() == 6, "not all calls are out");
        permits.release(6);
        first.join();
        others.join();
        assertEquals(0, connection.pending());
    }

    @Test void manyThreadsGetTheirOwnReplies() throws Exception {
        for (int threads : new int[] {1, 2, 3, 16}) {
            AtomicInteger later = new AtomicInteger();
            Team.of(threads, t -> {
                Random random = new Random(t);
                for (long i = 0; i < 400; i++) {
                    long number = 1_000_000L * t + i;
                    assertEquals(number, echo(number));
                    if (random.nextInt(20) == 0) {
                        Thread.sleep(random.nextInt(3));
                    } else if (random.nextInt(20) == 0) {
                        RedisConnection.Call call = new RedisConnection.Call(command(number), Runnable::run, it -> {
                            assertArrayEquals(new Object[] {number}, it.await());
                            later.incrementAndGet();
                        });
                        connection.submit(call);
                        later.decrementAndGet();
                    }
                }
            }).join();
            await(() -> later.get() == 0, "asynchronous calls without an end");
        }
    }

    @Test void anAsynchronousCallBehindALoneOneNeedsNoCaller() throws Exception {
        for (int i = 0; i < 20; i++) {
            echo(i);
            Semaphore ended = new Semaphore(0);
            connection.submit(new RedisConnection.Call(command(7), Runnable::run, it -> ended.release()));
            ended.acquire();
        }
    }

    @Test void aConnectionThatIsClosedWhileItIsIdleIsFoundOut() throws Exception {
        for (long i = 0; i < 10; i++) {
            echo(i);
        }
        accepted.close();
        await(connection::isBroken, "nobody has seen the end");
        await(() -> Thread.getAllStackTraces().keySet().stream().noneMatch(it -> it.getName().endsWith(":" + listener.getLocalPort())), "a reader that stays");
    }

    private static boolean isWatching() {
        return Thread.getAllStackTraces().keySet().stream().anyMatch(it -> it.getName().equals("jentry-watch"));
    }

    /** The reader thread may see the end before the constructor has returned. */
    @Test void connectionsThatEndAtOnceLeaveNothingToWatch() throws Exception {
        close();
        try (ServerSocket closing = new ServerSocket(0, 5, InetAddress.getLoopbackAddress())) {
            Team closes = Team.of(1, t -> {
                for (int i = 0; i < 1_000; i++) {
                    closing.accept().close();
                }
            });
            String node = "127.0.0.1:" + closing.getLocalPort();
            Options options = new Options(URI.create("jentry+redis://" + node), new Properties());
            for (int i = 0; i < 1_000; i++) {
                RedisConnection ended = new RedisConnection(node, options);
                await(ended::isBroken, "nobody has seen the end");
            }
            closes.join();
        }
        await(() -> !isWatching(), "a thread that watches");
    }

    @Test void closeLetsACallEndThatIsOut() throws Exception {
        permits.drainPermits();
        Team out = Team.of(3, t -> assertEquals(5L + t, echo(5L + t)));
        await(() -> connection.pending() == 3, "not all calls are out");
        Team closes = Team.of(1, t -> connection.close());
        await(() -> closes.threads().get(0).getState() == Thread.State.TIMED_WAITING, "close doesn't wait");
        permits.release(3);
        out.join();
        closes.join();
        assertThrows(CallNotSentException.class, () -> echo(1));
    }

    @Test void anInterruptLosesNothing() throws Exception {
        Team.of(1, t -> {
            for (long i = 0; i < 10; i++) {
                Thread.currentThread().interrupt();
                assertEquals(i, echo(i));
                assertTrue(Thread.interrupted());
            }
        }).join();
    }

    @Test void anInterruptOfCallersThatWaitLosesNothing() throws Exception {
        permits.drainPermits();
        Team all = Team.of(3, t -> {
            assertEquals(10L + t, echo(10L + t));
            assertTrue(Thread.interrupted(), "the interrupt is kept for the caller");
            assertEquals(20L + t, echo(20L + t));
        });
        await(() -> connection.pending() == 3, "not all calls are out");
        await(() -> all.threads().stream().allMatch(it -> isIn(it, "await")), "not all callers wait");
        all.threads().forEach(Thread::interrupt);
        Thread.sleep(20);
        assertEquals(3, connection.pending(), "an interrupt ends no call");
        permits.release(100);
        all.join();
    }

    @Test void aTimeoutEndsTheCallerThatReadsAndThoseThatWaitBesideIt() throws Exception {
        connectWithAShortTimeout(500);
        permits.drainPermits();
        Team all = Team.of(4, t -> assertThrows(CallOutcomeUnknownException.class, () -> echo(t)));
        all.join();
        assertTrue(connection.isBroken());
        assertEquals(0, connection.pending());
        assertThrows(CallNotSentException.class, () -> echo(1));
    }

    @Test void aLoneCallerWhoseReplyDoesntCome() throws Exception {
        connectWithAShortTimeout(200);
        permits.drainPermits();
        assertThrows(CallOutcomeUnknownException.class, () -> echo(1));
        assertTrue(connection.isBroken());
    }
}
