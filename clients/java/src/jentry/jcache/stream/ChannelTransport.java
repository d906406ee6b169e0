package jentry.jcache.stream;

import java.io.IOException;
import java.net.InetSocketAddress;
import java.net.StandardProtocolFamily;
import java.net.StandardSocketOptions;
import java.net.UnixDomainSocketAddress;
import java.nio.ByteBuffer;
import java.nio.channels.ClosedSelectorException;
import java.nio.channels.SelectionKey;
import java.nio.channels.Selector;
import java.nio.channels.SocketChannel;
import java.nio.file.Path;

/**
 * A connection to a running server, by a unix socket or by TCP.
 *
 * <p>An interrupt of a thread that is blocked in a channel closes the channel for all threads that share it. So this
 * channel is non-blocking: a selector waits, and an interrupt only wakes it. The thread then keeps waiting, and its
 * interrupt status is restored afterwards.
 */
final class ChannelTransport implements Transport {
    private static final int CONNECT_MILLIS = 5_000;
    private static final int ROOM = 65_536;

    private final SocketChannel channel;
    private final Selector selector;
    private final SelectionKey key;

    private final Spin spin = new Spin();

    // A channel copies arrays through a buffer that it keeps for each thread. With this buffer all threads share one.
    private final ByteBuffer buffer = ByteBuffer.allocateDirect(ROOM);

    private ChannelTransport(SocketChannel channel) throws IOException {
        this.channel = channel;
        channel.configureBlocking(false);
        selector = Selector.open();
        key = channel.register(selector, 0);
    }

    static Transport unix(Path path) throws IOException {
        SocketChannel channel = SocketChannel.open(StandardProtocolFamily.UNIX);
        try {
            channel.connect(UnixDomainSocketAddress.of(path));
            return new ChannelTransport(channel);
        } catch (IOException | RuntimeException e) {
            channel.close();
            throw e;
        }
    }

    static Transport tcp(String host, int port) throws IOException {
        SocketChannel channel = SocketChannel.open();
        try {
            channel.socket().connect(new InetSocketAddress(host, port), CONNECT_MILLIS);
            channel.setOption(StandardSocketOptions.TCP_NODELAY, true);
            return new ChannelTransport(channel);
        } catch (IOException | RuntimeException e) {
            channel.close();
            throw e;
        }
    }

    @Override public void write(byte[] text, int count) throws IOException {
        boolean interrupted = false;
        try {
            for (int from = 0; from < count; from += ROOM) {
                buffer.clear().put(text, from, Math.min(ROOM, count - from)).flip();
                while (buffer.hasRemaining()) {
                    if (channel.write(buffer) == 0) {
                        interrupted |= await(SelectionKey.OP_WRITE);
                    }
                }
            }
        } finally {
            restore(interrupted);
        }
    }

    @Override public int read(byte[] to, int from, int count) throws IOException {
        boolean interrupted = false;
        try {
            buffer.clear().limit(Math.min(ROOM, count));
            int got = look();
            while (got == 0) {
                interrupted |= await(SelectionKey.OP_READ);
                got = channel.read(buffer);
            }
            buffer.flip().get(to, from, Math.max(0, got));
            return got;
        } finally {
            restore(interrupted);
        }
    }

    /** Polls for bytes that are there or come soon. Returns the number of bytes read, 0 if there are none. */
    private int look() throws IOException {
        int got = channel.read(buffer);
        if (got == 0 && spin.begins()) {
            do {
                Thread.onSpinWait();
                got = channel.read(buffer);
            } while (spin.goesOn(got != 0));
        }
        return got;
    }

    /**
     * Waits until the channel is ready or something wakes the selector. Returns whether this thread was interrupted.
     */
    private boolean await(int operation) throws IOException {
        try {
            key.interestOps(operation);
            selector.select();
            selector.selectedKeys().clear();
            return Thread.interrupted();
        } catch (ClosedSelectorException | java.nio.channels.CancelledKeyException e) {
            throw new IOException("the connection was closed", e);
        }
    }

    private static void restore(boolean interrupted) {
        if (interrupted) {
            Thread.currentThread().interrupt();
        }
    }

    @Override public boolean isEnded() throws IOException {
        buffer.clear();
        return channel.read(buffer) != 0;
    }

    @Override public String lastWords() {
        return "";
    }

    @Override public void close() throws IOException {
        channel.close();
        selector.close();
    }

    @Override public void cut() {
        try {
            close();
        } catch (IOException e) {
            // The channel is closed as far as possible, and nobody uses it any more.
        }
    }
}
