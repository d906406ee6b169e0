package jentry.jcache.stream;

import java.io.IOException;
import java.util.ArrayDeque;
import java.util.ArrayList;
import java.util.List;
import java.util.concurrent.RejectedExecutionException;
import java.util.concurrent.TimeUnit;
import java.util.concurrent.locks.Condition;
import java.util.concurrent.locks.LockSupport;
import java.util.concurrent.locks.ReentrantLock;
import jentry.jcache.CallNotSentException;
import jentry.jcache.impl.Watch;

/**
 * A stream that many threads share. A round is a batch of calls, and at most one is in progress; calls that come
 * meanwhile are queued for the next round. An idle stream sends at once.
 *
 * <p>The calling threads do the work: one that waits leads its round. The leader reads the replies and passes them to
 * the calls, then sends the next round and hands the lead to a thread that waits in it. So the server works while the
 * next leader wakes up. Rounds in which no thread waits are led by a thread of the stream itself.
 *
 * <p>A thread waits for the replies to its call, so no round has two calls of one thread, and the calls of a thread
 * keep their order. An interrupted thread keeps waiting, and its interrupt status is restored afterwards.
 */
final class Line implements Watch.Watched {
    private static final long CLOSE_NANOS = TimeUnit.SECONDS.toNanos(5);
    private static final String CLOSED = "the cache is closed";

    /** How long a stream is idle before it is looked at whether it has ended meanwhile. */
    private static final long IDLE_NANOS = TimeUnit.MILLISECONDS.toNanos(10);

    private final Transport transport;
    private final Wire.In in;
    private final int limit;
    private final long timeoutNanos;

    private final ReentrantLock lock = new ReentrantLock();
    private final Condition room = lock.newCondition();
    private final Condition idle = lock.newCondition();
    private final ArrayDeque<Call> queue = new ArrayDeque<>();
    private final Wire.Out round = new Wire.Out(1 << 12);

    // Whether a thread has the lead or is about to take it. If none has, the queue is empty and no round is in
    // progress.
    private boolean led;
    // The calls of the round that was sent, for the thread that reads their replies, or null. Only the leader uses it.
    private List<Call> sent;
    private boolean ownLeads;
    private boolean out;
    private long since;
    // When the last round ended. Only the leader uses it.
    private long idleSince = System.nanoTime();
    private volatile boolean endedIdle;
    private volatile String broken;
    private Throwable cause;
    private boolean closed;
    private Thread own;
    private long rounds;

    /**
     * @param limit the maximum number of waiting calls
     * @param timeoutMillis the timeout of a round in milliseconds; 0 means none
     */
    Line(Transport transport, int limit, long timeoutMillis) {
        this.transport = transport;
        this.limit = limit;
        timeoutNanos = TimeUnit.MILLISECONDS.toNanos(timeoutMillis);
        in = new Wire.In(transport);
        if (timeoutMillis > 0) {
            Watch.add(this);
        }
    }

    /**
     * Makes a call and waits for its end. If the queue is full, it first waits for room.
     *
     * @throws javax.cache.CacheException if the stream is broken, or breaks before the call has its replies
     * @throws IllegalStateException if the stream is closed before the call is sent
     */
    void make(Call call) {
        call.waiter = Thread.currentThread();
        boolean leads;
        lock.lock();
        try {
            while (broken == null && queue.size() >= limit) {
                room.awaitUninterruptibly();
            }
            open();
            queue.add(call);
            leads = !led;
            led = true;
        } finally {
            lock.unlock();
        }
        if (leads) {
            lead();
        } else {
            await(call);
        }
        call.check();
    }

    /** Waits for the end of a call, and leads its round if this thread gets the lead. */
    private void await(Call call) {
        boolean interrupted = false;
        while (call.state != Call.State.ENDED) {
            if (call.state == Call.State.LEADS) {
                lead();
            } else {
                LockSupport.park(this);
                interrupted |= Thread.interrupted();
            }
        }
        if (interrupted) {
            Thread.currentThread().interrupt();
        }
    }

    /**
     * Queues a call without waiting; {@link Call#ended} is called at its end.
     *
     * @throws RejectedExecutionException if too many calls are waiting
     * @throws CallNotSentException if the stream is broken
     */
    void hand(Call call) {
        lock.lock();
        try {
            open();
            if (queue.size() >= limit) {
                throw new RejectedExecutionException(limit + " calls wait for the server already");
            }
            queue.add(call);
            if (!led) {
                led = true;
                wakeOwn();
            }
        } finally {
            lock.unlock();
        }
    }

    /** Throws if the stream is closed or broken. The caller holds the lock. */
    private void open() {
        if (closed) {
            throw new IllegalStateException(CLOSED);
        } else if (broken != null) {
            throw new CallNotSentException(broken, cause);
        }
    }

    /** Gives the lead to the thread of the stream. The caller holds the lock. */
    private void wakeOwn() {
        ownLeads = true;
        if (own == null) {
            own = new Thread(this::leadOthers, "jentry-leader");
            own.setDaemon(true);
            own.start();
        }
        LockSupport.unpark(own);
    }

    /** Leads the rounds in which no thread waits. */
    private void leadOthers() {
        while (true) {
            boolean mine;
            lock.lock();
            try {
                mine = ownLeads;
                ownLeads = false;
                if (!mine && broken != null) {
                    return;
                }
            } finally {
                lock.unlock();
            }
            if (mine) {
                lead();
            } else {
                LockSupport.park(this);
            }
        }
    }

    /**
     * Reads the replies of the round in progress, or sends a round first if there is none. Then it sends the next
     * round, which runs while another thread wakes up to lead it, and ends the calls of its own round.
     */
    private void lead() {
        if (sent == null && !send()) {
            return;
        }
        List<Call> taken = sent;
        sent = null;
        try {
            readReplies(taken);
            idleSince = System.nanoTime();
        } catch (IOException | RuntimeException e) {
            fail(taken, e);
            return;
        } catch (Error e) {
            fail(taken, e);
            throw e;
        }
        try {
            if (send()) {
                handOn();
            }
        } finally {
            tell(taken);
        }
    }

    /**
     * Sends the queued calls as the next round. Returns false if the queue is empty or the stream breaks; then no
     * thread has the lead.
     */
    private boolean send() {
        List<Call> taken = take();
        if (taken.isEmpty()) {
            return false;
        }
        try {
            if (System.nanoTime() - idleSince > IDLE_NANOS && transport.isEnded()) {
                endedIdle = true;
                fail(taken, new IOException("it ended while it was idle"), false);
                return false;
            }
            transport.write(round.bytes(), round.length());
        } catch (IOException | RuntimeException e) {
            fail(taken, e);
            return false;
        } catch (Error e) {
            fail(taken, e);
            throw e;
        }
        sent = taken;
        return true;
    }

    /** Gives the lead to a thread that waits for a call of the round that was sent. */
    private void handOn() {
        for (Call call : sent) {
            if (call.waiter != null) {
                call.state = Call.State.LEADS;
                LockSupport.unpark(call.waiter);
                return;
            }
        }
        lock.lock();
        try {
            wakeOwn();
        } finally {
            lock.unlock();
        }
    }

    /**
     * Takes the calls of the next round off the queue and marks the round as in progress. Returns an empty list if the
     * queue is empty.
     */
    private List<Call> take() {
        List<Call> taken = new ArrayList<>();
        lock.lock();
        try {
            int jobs = 0;
            round.clear();
            while (!queue.isEmpty() && jobs + queue.peek().jobs() <= Wire.MOST_JOBS) {
                Call call = queue.poll();
                jobs += call.jobs();
                round.put(call.text());
                taken.add(call);
            }
            out = !taken.isEmpty();
            if (out) {
                round.end();
                room.signalAll();
                since = System.nanoTime();
                rounds++;
            } else {
                led = false;
                idle.signalAll();
            }
        } finally {
            lock.unlock();
        }
        return taken;
    }

    private void readReplies(List<Call> taken) throws IOException {
        for (Call call : taken) {
            for (int request = 0; request < call.requests(); request++) {
                int kind = in.next();
                if (kind == Wire.ENDED) {
                    throw new IOException("a round ended before all of its replies");
                }
                call.reply(request, kind, in);
            }
        }
        if (in.next() != Wire.ENDED) {
            throw new IOException("a round has more replies than requests");
        }
    }

    private static void tell(List<Call> ended) {
        for (Call call : ended) {
            call.ended();
            Thread waiter = call.waiter;
            call.state = Call.State.ENDED;
            if (waiter != null && waiter != Thread.currentThread()) {
                LockSupport.unpark(waiter);
            }
        }
    }

    private void fail(List<Call> taken, Throwable why) {
        fail(taken, why, true);
    }

    /** Ends the calls of the leader's round and all waiting calls with an error. */
    private void fail(List<Call> taken, Throwable why, boolean wasSent) {
        // This comes first, because cut() closes the pipe that the words come from.
        String last = transport.lastWords();
        transport.cut();
        String what = "the stream to the server is broken" + (last.isEmpty() ? "" : " (" + last + ")");
        List<Call> waited = breakLine(what, why);
        lock.lock();
        try {
            for (Call call : taken) {
                call.fail(broken, why, wasSent);
            }
            out = false;
            led = false;
            idle.signalAll();
        } finally {
            lock.unlock();
        }
        tell(taken);
        tell(waited);
    }

    /**
     * Marks the stream as broken, so that every later call fails. Returns the calls that waited, whose ends the caller
     * must report. If there are several reasons, the first one is kept.
     */
    private List<Call> breakLine(String what, Throwable why) {
        lock.lock();
        try {
            if (broken == null) {
                broken = what;
                cause = why;
            }
            List<Call> waited = new ArrayList<>(queue);
            queue.clear();
            for (Call call : waited) {
                if (closed) {
                    call.close(CLOSED);
                } else {
                    call.fail(broken, cause, false);
                }
                call.state = Call.State.ENDED;
            }
            room.signalAll();
            LockSupport.unpark(own);
            return waited;
        } finally {
            lock.unlock();
        }
    }

    /**
     * Ends a stream whose round has timed out.
     *
     * @param now the time by {@link System#nanoTime}
     */
    @Override public void watch(long now) {
        long millis = TimeUnit.NANOSECONDS.toMillis(timeoutNanos);
        String what = "the stream to the server is broken (a round took longer than " + millis + " ms)";
        List<Call> waited;
        lock.lock();
        try {
            if (!out || now - since <= timeoutNanos || broken != null) {
                return;
            }
            waited = breakLine(what, null);
        } finally {
            lock.unlock();
        }
        transport.cut();
        tell(waited);
    }

    @Override public long timeoutNanos() {
        return timeoutNanos;
    }

    /** Returns whether the stream has ended or is closed. */
    boolean isBroken() {
        return broken != null;
    }

    /** Returns whether the stream had ended before its last calls were to be sent, so that they can be made on a new one. */
    boolean hasEndedIdle() {
        return endedIdle;
    }

    /** Releases a stream that has ended, and returns why it has. */
    String end() {
        Watch.remove(this);
        transport.cut();
        return broken;
    }

    /** Returns the number of rounds sent. */
    long rounds() {
        lock.lock();
        try {
            return rounds;
        } finally {
            lock.unlock();
        }
    }

    /** Returns the number of calls that wait for their round. */
    int waiting() {
        lock.lock();
        try {
            return queue.size();
        } finally {
            lock.unlock();
        }
    }

    /** Closes the stream. Waiting calls fail; the round in progress has five seconds to finish. */
    void close() throws IOException {
        Watch.remove(this);
        lock.lock();
        try {
            closed = true;
        } finally {
            lock.unlock();
        }
        tell(breakLine(CLOSED, null));
        boolean over = awaitIdle();
        if (over) {
            transport.close();
        } else {
            transport.cut();
        }
    }

    private boolean awaitIdle() {
        lock.lock();
        try {
            long left = CLOSE_NANOS;
            while (out && left > 0) {
                left = idle.awaitNanos(left);
            }
            return !out;
        } catch (InterruptedException e) {
            Thread.currentThread().interrupt();
            return false;
        } finally {
            lock.unlock();
        }
    }
}
