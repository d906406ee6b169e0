package jentry.jcache.stream;

import java.io.IOException;
import java.util.List;
import java.util.concurrent.CompletableFuture;
import java.util.function.ObjLongConsumer;
import jentry.jcache.ProcessorRefusedException;
import jentry.jcache.impl.Places;
import jentry.jcache.impl.ProcessorFaults;
import jentry.jcache.impl.ProcessorFile;
import jentry.jcache.store.Invocation;

/** The calls of a cache: the replies each one takes, and the result or exception it produces. */
final class Calls {
    private Calls() { }

    /** One put, get, remove, contains or invoke. */
    static class One extends Call {
        private final int expected;
        private final String what;
        private final ProcessorFile file;
        private Object told;
        private int denial;
        private int loaderFault;

        /**
         * @param expected the kind of the reply
         * @param what the request, for messages
         */
        One(Wire.Out text, int expected, String what) {
            this(text, expected, what, null);
        }

        /** @param file the class that the request, an invocation, runs */
        One(Wire.Out text, ProcessorFile file) {
            this(text, Wire.RESULT, file.type(), file);
        }

        private One(Wire.Out text, int expected, String what, ProcessorFile file) {
            super(text, 1, 1);
            this.expected = expected;
            this.what = what;
            this.file = file;
        }

        @Override void reply(int request, int kind, Wire.In body) throws IOException {
            if (kind == Wire.DENIED) {
                denial = body.u1();
            } else if (isLoaderFault(kind, expected)) {
                loaderFault = Outcome.readLoaderFault(body);
            } else if (kind != expected) {
                throw unlike(kind);
            } else if (kind == Wire.RESULT) {
                told = Outcome.read(body, file);
            } else {
                told = simple(kind, body);
            }
        }

        /** Returns the content of the reply after the call has ended. Throws if the call failed. */
        Object answer() {
            check();
            if (denial != 0) {
                throw Outcome.denied(denial, what);
            } else if (loaderFault != 0) {
                throw ProcessorFaults.ofLoader(loaderFault);
            }
            return told;
        }
    }

    /** Returns whether the reply is a result instead of a value: the reply to a get if the server's loader failed. */
    private static boolean isLoaderFault(int kind, int expected) {
        return kind == Wire.RESULT && expected == Wire.VALUE;
    }

    /** Returns the Long or null of a value, the Boolean of a flag, or null for Done. */
    private static Object simple(int kind, Wire.In body) throws IOException {
        if (kind == Wire.FLAG) {
            return body.flag();
        }
        Object value = kind == Wire.VALUE ? body.argument() : null;
        if (value != null && !(value instanceof Long)) {
            throw new IOException("a value of the type " + value.getClass().getSimpleName());
        }
        return value;
    }

    /** An invocation. */
    static final class Invoke extends One {
        Invoke(Wire.Out text, ProcessorFile file) {
            super(text, file);
        }

        /** Returns the outcome of the run after the call has ended. Throws if the call failed. */
        final Invocation invocation() {
            return (Invocation) answer();
        }
    }

    /**
     * A request that no thread waits for. The future's default executor completes it, because actions that depend on it
     * may wait for other calls.
     *
     * @param <T> the type of the answer
     */
    static final class Async<T> extends One {
        final CompletableFuture<T> future = new CompletableFuture<>();

        Async(Wire.Out text, int expected, String what) {
            super(text, expected, what);
        }

        Async(Wire.Out text, ProcessorFile file) {
            super(text, file);
        }

        @Override void ended() {
            future.defaultExecutor().execute(this::complete);
        }

        @SuppressWarnings("unchecked")
        private void complete() {
            try {
                future.complete((T) answer());
            } catch (RuntimeException e) {
                future.completeExceptionally(e);
            }
        }
    }

    /** Takes the reply to one of several requests. */
    interface Taker {
        void take(int request, Object told);
    }

    /** Several puts, gets or removes. */
    static final class Many extends Call {
        private final int expected;
        private final String what;
        private final Taker taker;
        private int denial;
        private int loaderFault;

        Many(Wire.Out text, int count, int expected, String what, Taker taker) {
            super(text, count, count);
            this.expected = expected;
            this.what = what;
            this.taker = taker;
        }

        @Override void reply(int request, int kind, Wire.In body) throws IOException {
            if (kind == Wire.DENIED) {
                denial = body.u1();
            } else if (isLoaderFault(kind, expected)) {
                loaderFault = Outcome.readLoaderFault(body);
            } else if (kind != expected) {
                throw unlike(kind);
            } else {
                taker.take(request, simple(kind, body));
            }
        }

        /** Throws if the call failed or the server denied one of its requests. */
        void answer() {
            check();
            if (denial != 0) {
                throw Outcome.denied(denial, "a request of " + what);
            } else if (loaderFault != 0) {
                throw ProcessorFaults.ofLoader(loaderFault);
            }
        }
    }

    /** An invokeAll. */
    static final class InvokeAll extends Call {
        private final long[] keys;
        private final ProcessorFile file;
        private final ObjLongConsumer<Invocation> taker;
        private int denial;

        InvokeAll(Wire.Out text, long[] keys, ProcessorFile file, ObjLongConsumer<Invocation> taker) {
            super(text, 1, keys.length);
            this.keys = keys;
            this.file = file;
            this.taker = taker;
        }

        /** Takes the results, which come in the order of the keys; some may be left out. */
        @Override void reply(int request, int kind, Wire.In body) throws IOException {
            if (kind == Wire.DENIED) {
                denial = body.u1();
                return;
            } else if (kind != Wire.RESULTS) {
                throw unlike(kind);
            }
            int at = 0;
            for (int count = body.u2(); count > 0; count--) {
                long key = body.s8();
                while (at < keys.length && keys[at] != key) {
                    at++;
                }
                if (at == keys.length) {
                    throw new IOException("a result of the key " + key + ", which wasn't asked for, or not there");
                }
                at++;
                taker.accept(Outcome.read(body, file), key);
            }
        }

        void answer() {
            check();
            if (denial != 0) {
                throw Outcome.denied(denial, file.type());
            }
        }
    }

    /** The definition of a class. It doesn't count as a job. */
    static final class Define extends Call {
        private final ProcessorFile file;
        private int kind;
        private int number;
        private int detail;

        Define(ProcessorFile file) {
            super(new Wire.Out(file.bytes().length + 5).define(file.bytes()), 1, 0);
            this.file = file;
        }

        @Override void reply(int request, int told, Wire.In body) throws IOException {
            kind = told;
            if (told == Wire.DEFINED) {
                number = body.s4();
                body.s8();
            } else if (told == Wire.REFUSED) {
                number = body.u1();
                detail = body.s4();
            } else if (told == Wire.DENIED) {
                number = body.u1();
            } else {
                throw unlike(told);
            }
        }

        /** Returns the class's number on the stream. Throws if the class was refused or the request denied. */
        int answer() {
            check();
            if (kind == Wire.REFUSED) {
                List<String> places = Places.of(file.bytes(), number, detail);
                throw new ProcessorRefusedException(file.type(), number, detail, places);
            } else if (kind == Wire.DENIED) {
                throw Outcome.denied(number, "the class " + file.type());
            }
            return number;
        }
    }
}
