package jentry.jcache.stream;

import java.util.List;
import java.util.concurrent.ConcurrentHashMap;
import java.util.concurrent.locks.ReentrantLock;
import jentry.jcache.ProcessorRefusedException;
import jentry.jcache.impl.ProcessorFile;
import jentry.jcache.impl.Refusal;

/** One stream, and the numbers that its server gave to classes. */
final class Session {
    final Line line;
    private final ConcurrentHashMap<ProcessorFile, Definition> definitions = new ConcurrentHashMap<>();

    /** A class of the stream. The thread that defines the class holds the lock, so the class is defined once. */
    private static final class Definition {
        final ReentrantLock lock = new ReentrantLock();

        /** The class's number on the stream, or -1. */
        volatile int number = -1;
    }

    Session(Line line) {
        this.line = line;
    }

    /** Returns the number of a class on the stream, and defines the class at its first use. */
    int number(ProcessorFile file) {
        Definition known = definitions.computeIfAbsent(file, it -> new Definition());
        if (known.number < 0) {
            known.lock.lock();
            try {
                if (known.number < 0) {
                    known.number = define(file);
                }
            } finally {
                known.lock.unlock();
            }
        }
        return known.number;
    }

    private int define(ProcessorFile file) {
        if (file.bytes().length >= Wire.LONGEST) {
            throw new ProcessorRefusedException(file.type(), Refusal.TOO_LARGE.number(), 0, List.of());
        }
        Calls.Define call = new Calls.Define(file);
        line.make(call);
        return call.answer();
    }
}
