package jentry.jcache.redis;

import java.io.IOException;
import java.util.ArrayDeque;
import java.util.ArrayList;
import java.util.Arrays;
import java.util.List;
import java.util.concurrent.Executor;
import java.util.concurrent.TimeUnit;
import java.util.concurrent.locks.Condition;
import java.util.concurrent.locks.LockSupport;
import java.util.concurrent.locks.ReentrantLock;
import java.util.function.Consumer;
import jentry.jcache.CallNotSentException;
import jentry.jcache.CallOutcomeUnknownException;
import jentry.jcache.impl.Options;
import jentry.jcache.impl.Watch;

/**
 * One connection to one node, shared by all threads. The commands of a call are sent without other commands between
 * them. A thread that finds no other thread writing writes all queued calls in one write. If a reply takes longer than
 * the timeout, the connection is closed for good.
 *
 * <p>The replies come in the order of the commands. A caller that is alone reads its own reply, so no other thread has
 * to be woken. Once several calls are out, a reader thread takes the replies, until calls come one by one again. It
 * also reads while there are no calls, and so finds out that the connection was closed before a call is lost on it.
 */
final class RedisConnection implements Watch.Watched {
    /** After how many replies to calls that were alone the reader thread leaves the replies to the callers. */
    private static final int MOST_ALONE = 4;
    private static final long QUIET_NANOS = TimeUnit.MILLISECONDS.toNanos(20);
    private static final long CLOSE_NANOS = TimeUnit.SECONDS.toNanos(5);
    private static final long CLOSE_PAUSE_NANOS = 200_000;

    private final String node;
    private final RedisSocket at;
    private final long timeoutNanos;
    private final ReentrantLock lock = new ReentrantLock();
    private final Condition readersTurn = lock.newCondition();
    private final ArrayDeque<Call> unsent = new ArrayDeque<>();
    private final ArrayDeque<Call> sent = new ArrayDeque<>();
    private byte[] room = new byte[1 << 14];
    private boolean writing;
    private By reading = By.READER;
    private int alone;
    private long submitted;
    private volatile String broken;
    private Throwable cause;

    /** Who reads the replies. */
    private enum By { NOBODY, CALLER, READER }

    /** Commands and their outcome. */
    static final class Call {
        private final Resp.Commands commands;
        private final Object[] replies;
        private final Thread waiter;
        private final Executor executor;
        private final Consumer<Call> then;
        private int got;
        private long since;
        private boolean wasSent;
        private String trouble;
        private Throwable cause;
        private volatile boolean ended;
        private RedisConnection at;

        /** Creates a call whose replies this thread waits for. */
        Call(Resp.Commands commands) {
            this(commands, Thread.currentThread(), null, null);
        }

        /** Creates a call that no thread waits for; the executor runs {@code then} after its end. */
        Call(Resp.Commands commands, Executor executor, Consumer<Call> then) {
            this(commands, null, executor, then);
        }

        private Call(Resp.Commands commands, Thread waiter, Executor executor, Consumer<Call> then) {
            this.commands = commands;
            this.waiter = waiter;
            this.executor = executor;
            this.then = then;
            replies = new Object[commands.count()];
        }

        private void end() {
            ended = true;
            if (waiter == null) {
                executor.execute(() -> then.accept(this));
            } else {
                LockSupport.unpark(waiter);
            }
        }

        /**
         * Waits for the end of the call, in the thread that created it, and returns the replies in the order of the
         * commands.
         *
         * @throws CallNotSentException if nothing of it was sent
         * @throws CallOutcomeUnknownException if the connection broke before all replies came
         */
        Object[] await() {
            boolean interrupted = false;
            if (at != null) {
                at.readFor(this);
            }
            while (!ended) {
                LockSupport.park(this);
                interrupted |= Thread.interrupted();
            }
            if (interrupted) {
                Thread.currentThread().interrupt();
            }
            if (trouble != null) {
                throw wasSent ? new CallOutcomeUnknownException(trouble, cause)
                    : new CallNotSentException(trouble, cause);
            }
            return replies;
        }
    }

    /** Connects to a node and starts the reader thread. */
    RedisConnection(String node, Options options) throws IOException {
        this.node = node;
        at = new RedisSocket(node, options);
        timeoutNanos = TimeUnit.MILLISECONDS.toNanos(options.timeoutMillis());
        // This comes before the start of the reader thread, which ends the watch if it finds the connection ended.
        if (timeoutNanos > 0) {
            Watch.add(this);
        }
        Thread reader = new Thread(this::read, "jentry-redis-" + node);
        reader.setDaemon(true);
        reader.start();
    }

    boolean isBroken() {
        return broken != null;
    }

    /** Returns the number of calls that haven't ended. */
    int pending() {
        lock.lock();
        try {
            return unsent.size() + sent.size();
        } finally {
            lock.unlock();
        }
    }

    /** Queues a call, and writes it unless another thread is writing. */
    void submit(Call call) {
        boolean writes = false;
        lock.lock();
        try {
            if (broken == null) {
                call.at = this;
                submitted++;
                unsent.add(call);
                writes = !writing;
                writing = true;
                if (call.waiter == null && reading == By.NOBODY) {
                    handToReader();
                }
            } else {
                call.trouble = broken;
                call.cause = cause;
            }
        } finally {
            lock.unlock();
        }
        if (call.trouble != null) {
            call.end();
        } else if (writes) {
            write();
        }
    }

    private void write() {
        for (int length = gather(); length > 0; length = gather()) {
            try {
                at.socket.getOutputStream().write(room, 0, length);
            } catch (IOException | RuntimeException e) {
                cut(e);
            }
        }
    }

    /**
     * Copies the queued commands into the buffer. Returns their length, or 0 if the queue is empty; this thread stops
     * writing then.
     */
    private int gather() {
        lock.lock();
        try {
            if (unsent.isEmpty() || broken != null) {
                writing = false;
                return 0;
            }
            int length = 0;
            long now = System.nanoTime();
            for (Call call : unsent) {
                int end = length + call.commands.length();
                if (end > room.length) {
                    room = Arrays.copyOf(room, Math.max(end, 2 * room.length));
                }
                System.arraycopy(call.commands.bytes(), 0, room, length, call.commands.length());
                length = end;
                call.wasSent = true;
                call.since = now;
                sent.add(call);
            }
            unsent.clear();
            return length;
        } finally {
            lock.unlock();
        }
    }

    /** Reads replies in the reader thread. */
    private void read() {
        try {
            while (isReadersTurn()) {
                readOne();
            }
        } catch (IOException | RuntimeException | Error e) {
            cut(e);
        }
    }

    private void readOne() throws IOException {
        Call ended = take(at.in.reply());
        if (ended != null) {
            ended.end();
        }
    }

    /** Waits until the reader thread has to read. Returns whether the connection is still open. */
    private boolean isReadersTurn() {
        lock.lock();
        try {
            if (alone >= MOST_ALONE && isIdle()) {
                reading = By.NOBODY;
            }
            while (broken == null && reading != By.READER) {
                long before = submitted;
                awaitTurn();
                if (reading == By.NOBODY && submitted == before) {
                    handToReader();
                }
            }
            return broken == null;
        } finally {
            lock.unlock();
        }
    }

    private void awaitTurn() {
        try {
            readersTurn.awaitNanos(QUIET_NANOS);
        } catch (InterruptedException e) {
            // Nobody has a reason to interrupt this thread, so it continues.
        }
    }

    /** Returns whether no call is out. The caller holds the lock. */
    private boolean isIdle() {
        return sent.isEmpty() && unsent.isEmpty();
    }

    /** Makes the reader thread read. The caller holds the lock. */
    private void handToReader() {
        reading = By.READER;
        alone = 0;
        readersTurn.signal();
    }

    /** Reads replies up to the last one of a call, in the thread that waits for it, if no other thread reads. */
    private void readFor(Call call) {
        lock.lock();
        try {
            if (call.ended || broken != null || reading != By.NOBODY) {
                return;
            }
            reading = By.CALLER;
        } finally {
            lock.unlock();
        }
        try {
            while (!call.ended) {
                readOne();
            }
        } catch (IOException | RuntimeException e) {
            cut(e);
        } catch (Error e) {
            cut(e);
            throw e;
        } finally {
            lock.lock();
            try {
                reading = By.NOBODY;
                if (!isIdle()) {
                    handToReader();
                }
            } finally {
                lock.unlock();
            }
        }
    }

    /** Adds a reply to the oldest call. Returns the call if that was its last reply, else null. */
    private Call take(Object reply) throws IOException {
        lock.lock();
        try {
            Call call = sent.peek();
            if (call == null) {
                throw new IOException("a reply to no command");
            }
            call.replies[call.got++] = reply;
            if (call.got < call.replies.length) {
                return null;
            }
            sent.remove();
            alone = isIdle() ? alone + 1 : 0;
            return call;
        } finally {
            lock.unlock();
        }
    }

    @Override public void watch(long now) {
        boolean isLate;
        lock.lock();
        try {
            Call oldest = sent.peek();
            isLate = oldest != null && now - oldest.since > timeoutNanos;
        } finally {
            lock.unlock();
        }
        if (isLate) {
            cut(new IOException("no reply within " + TimeUnit.NANOSECONDS.toMillis(timeoutNanos) + " ms"));
        }
    }

    @Override public long timeoutNanos() {
        return timeoutNanos;
    }

    private void cut(Throwable why) {
        List<Call> all = new ArrayList<>();
        lock.lock();
        try {
            if (broken == null) {
                cause = why;
                broken = broken(why);
            }
            all.addAll(sent);
            all.addAll(unsent);
            sent.clear();
            unsent.clear();
            for (Call call : all) {
                call.trouble = broken;
                call.cause = cause;
            }
            readersTurn.signalAll();
        } finally {
            lock.unlock();
        }
        Watch.remove(this);
        at.close();
        all.forEach(Call::end);
    }

    /** Closes the connection once no call is out, or after five seconds. */
    void close() {
        IOException why = new IOException("it was closed");
        long end = System.nanoTime() + CLOSE_NANOS;
        while (!isEndedBy(why, System.nanoTime() > end)) {
            LockSupport.parkNanos(CLOSE_PAUSE_NANOS);
        }
        cut(why);
    }

    /** Lets no further call in, unless one is out and it isn't late. Returns whether none comes in. */
    private boolean isEndedBy(IOException why, boolean isLate) {
        lock.lock();
        try {
            if (broken == null && (isLate || isIdle())) {
                cause = why;
                broken = broken(why);
            }
            return broken != null;
        } finally {
            lock.unlock();
        }
    }

    private String broken(Throwable why) {
        return "the connection to " + node + " is broken (" + why.getMessage() + ")";
    }
}
