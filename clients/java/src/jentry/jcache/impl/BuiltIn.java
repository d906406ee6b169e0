package jentry.jcache.impl;

import java.io.IOException;
import java.io.InputStream;

/**
 * The processors for cache operations that the server has no request for. They are sent and verified like any other.
 */
public enum BuiltIn {
    GET_AND_PUT("GetAndPut"),
    GET_AND_REMOVE("GetAndRemove"),
    GET_AND_REPLACE("GetAndReplace"),
    PUT_IF_ABSENT("PutIfAbsent"),
    REMOVE_IF("RemoveIf"),
    REPLACE("Replace"),
    REPLACE_IF("ReplaceIf");

    private final ProcessorFile file;

    BuiltIn(String name) {
        String path = "/jentry/processors/" + name + ".class";
        try (InputStream in = BuiltIn.class.getResourceAsStream(path)) {
            if (in == null) {
                throw new IllegalStateException("the jar of the provider lacks " + path);
            }
            file = new ProcessorFile("jentry.processors." + name, in.readAllBytes());
        } catch (IOException e) {
            throw new IllegalStateException("the jar of the provider can't be read at " + path, e);
        }
    }

    /** Returns the processor's class file. */
    public ProcessorFile file() {
        return file;
    }
}
