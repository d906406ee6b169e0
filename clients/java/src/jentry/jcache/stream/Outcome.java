package jentry.jcache.stream;

import java.io.IOException;
import javax.cache.CacheException;
import jentry.jcache.impl.ProcessorFaults;
import jentry.jcache.impl.ProcessorFile;
import jentry.jcache.store.Invocation;

/** The server's reply to one invocation: a result, an exception of the processor, or a denial. */
final class Outcome {
    private static final int RETURNED = 0, THREW = 1, DENIED = 2, THROWN = 3;
    // generated from protocol/denials.tsv by protocol/generate.py --write
    private static final String[] DENIALS =
        {"", "UnknownClass", "JournalFull", "NoMemory", "TooManyClasses", "TooManyJobs"};
    // end of the generated part

    private Outcome() { }

    /**
     * Reads a reply.
     *
     * @param file the class that was run
     */
    static Invocation read(Wire.In body, ProcessorFile file) throws IOException {
        int kind = body.u1();
        if (kind == RETURNED) {
            return Invocation.of(body.argument());
        } else if (kind != THREW && kind != DENIED && kind != THROWN) {
            throw new IOException("an outcome of kind " + kind);
        }
        int number = body.u1();
        if (kind == THROWN) {
            int text = body.u2();
            return Invocation.failed(() -> ProcessorFaults.thrown(number, file.text(text)));
        }
        return kind == THREW ? Invocation.failed(() -> ProcessorFaults.of(number, file.type()))
            : Invocation.failed(() -> denied(number, file.type()));
    }

    /** Returns the number of the exception with which the server's loader ended in a get. */
    static int readLoaderFault(Wire.In body) throws IOException {
        int kind = body.u1();
        if (kind != THREW) {
            throw new IOException("a result of a get that is no exception, but of kind " + kind);
        }
        return body.u1();
    }

    /** Returns the exception for a request that the server denied. */
    static CacheException denied(int number, String what) {
        String name = number > 0 && number < DENIALS.length ? DENIALS[number] : "denial";
        return new CacheException(what + " is denied by the server: " + number + " " + name + "; it changed nothing");
    }
}
