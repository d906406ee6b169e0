package jentry.compiler.rewrite;

import java.util.HashSet;
import java.util.Set;
import org.objectweb.asm.tree.AbstractInsnNode;
import org.objectweb.asm.tree.analysis.Value;

/**
 * A value in the code around a `throw`.
 *
 * @param size its number of slots
 * @param kind what it is
 * @param type the descriptor of its class as far as the code says it, else null
 * @param text what is known of a STRING or a BUILDER: its constant parts, one after the other; null if it differs from path to path
 * @param isWhole whether these are all of it
 * @param makers the instructions that a value that isn't OTHER is made by
 */
record TextValue(int size, Kind kind, String type, String text, boolean isWhole, Set<AbstractInsnNode> makers) implements Value {
    /** The kinds of values: those of which texts of exceptions are made, and others. */
    enum Kind { STRING, BUILDER, ARRAY, EXCEPTION, OTHER }

    /** Returns a value of another kind. */
    static TextValue other(int size, String type) {
        return new TextValue(size, Kind.OTHER, type, null, false, Set.of());
    }

    /** Returns a value that one instruction makes. */
    static TextValue made(Kind kind, String type, String text, AbstractInsnNode by) {
        return new TextValue(1, kind, type, text, true, Set.of(by));
    }

    /** Returns a text that an instruction joins of a part before it and others, of which nothing is known that isn't a text. */
    static TextValue joined(Kind kind, String text, boolean isWhole, AbstractInsnNode by, Iterable<? extends TextValue> parts) {
        Set<AbstractInsnNode> makers = new HashSet<>(Set.of(by));
        for (TextValue part : parts) {
            makers.addAll(part.makers);
        }
        return new TextValue(1, kind, null, text, isWhole, makers);
    }

    boolean is(Kind wanted) {
        return kind == wanted;
    }

    /** Returns the constant parts of a text, which is empty for other values. */
    String part() {
        return kind == Kind.STRING && text != null ? text : "";
    }

    @Override
    public int getSize() {
        return size;
    }

    /** Returns a value that is either this one or the other. */
    TextValue or(TextValue other) {
        if (equals(other)) {
            return this;
        }
        Set<AbstractInsnNode> all = new HashSet<>(makers);
        all.addAll(other.makers);
        boolean isSame = kind == other.kind;
        return new TextValue(Math.min(size, other.size), isSame ? kind : Kind.OTHER, type != null && type.equals(other.type) ? type : null, null, false, all);
    }
}
