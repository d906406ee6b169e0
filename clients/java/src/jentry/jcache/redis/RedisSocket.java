package jentry.jcache.redis;

import java.io.IOException;
import java.net.InetSocketAddress;
import java.net.Socket;
import javax.cache.CacheException;
import javax.net.ssl.SSLParameters;
import javax.net.ssl.SSLSocket;
import javax.net.ssl.SSLSocketFactory;
import jentry.jcache.impl.Options;

/** A connection to one node, after the TLS handshake and AUTH if the options ask for them. */
final class RedisSocket {
    private static final int CONNECT_MILLIS = 3_000;

    final Socket socket;
    final Resp.In in;

    /**
     * Connects to a node.
     *
     * @param node HOST:PORT
     * @throws IOException if the node isn't reachable, or this JVM doesn't trust its certificate
     * @throws CacheException if the node refuses the password
     */
    RedisSocket(String node, Options options) throws IOException {
        Socket plain = new Socket();
        try {
            int colon = node.lastIndexOf(':');
            String host = node.substring(0, colon);
            int port = Integer.parseInt(node.substring(colon + 1));
            plain.connect(new InetSocketAddress(host, port), CONNECT_MILLIS);
            plain.setTcpNoDelay(true);
            plain.setKeepAlive(true);
            plain.setSoTimeout(CONNECT_MILLIS);
            socket = options.isTls() ? encrypted(plain, host, port) : plain;
            in = new Resp.In(socket.getInputStream());
            authenticate(node, options);
            socket.setSoTimeout(0);
        } catch (IOException | RuntimeException e) {
            plain.close();
            throw e;
        }
    }

    /**
     * Starts TLS. The certificate must match the host and come from an authority that the JVM trusts
     * (javax.net.ssl.trustStore).
     */
    private static Socket encrypted(Socket plain, String host, int port) throws IOException {
        SSLSocket socket = (SSLSocket) ((SSLSocketFactory) SSLSocketFactory.getDefault())
            .createSocket(plain, host, port, true);
        SSLParameters parameters = socket.getSSLParameters();
        parameters.setEndpointIdentificationAlgorithm("HTTPS");
        socket.setSSLParameters(parameters);
        socket.startHandshake();
        return socket;
    }

    private void authenticate(String node, Options options) throws IOException {
        String user = options.text("jentry.user"), password = options.text("jentry.password");
        if (password == null) {
            return;
        }
        Object reply = ask(user == null ? new Object[] {"AUTH", password} : new Object[] {"AUTH", user, password});
        if (reply instanceof Resp.Failure f) {
            throw new CacheException(node + " refuses jentry.user and jentry.password: " + f.text());
        }
    }

    /** Sends one command and waits for its reply. */
    Object ask(Object... words) throws IOException {
        send(words);
        return in.reply();
    }

    /** Sends one command. */
    void send(Object... words) throws IOException {
        Resp.Commands command = new Resp.Commands().add(words);
        socket.getOutputStream().write(command.bytes(), 0, command.length());
        socket.getOutputStream().flush();
    }

    void close() {
        try {
            socket.close();
        } catch (IOException e) {
            // The socket is closed as far as possible.
        }
    }
}
