package jentry.compiler.link;

import java.util.List;
import java.util.Objects;
import org.objectweb.asm.Type;
import org.objectweb.asm.tree.analysis.BasicValue;

/** What is known of a value while classes are linked: its static type, and where its object comes from. */
final class Known extends BasicValue {
    /** The origin of an object that is never null. */
    interface Place {
        /** Returns the internal name of the object's class, or null if it isn't known. */
        String type();

        /** Returns whether the compiled code has no value for the object: null is in its place. */
        default boolean isAbstract() {
            return !(this instanceof Fixed it && (it.object instanceof Long || it.object instanceof Integer || it.object instanceof Enum<?>
                || it.object instanceof java.time.LocalDate));
        }
    }

    /**
     * An object that the processor holds, or the processor itself where the path is empty.
     *
     * @param type the internal name of its class, or null
     */
    record Held(List<Capture.Step> path, String type) implements Place { }

    /** An object, or a number, that is known at compile time. Two are equal if they are the same object, or equal numbers. */
    record Fixed(Object object) implements Place {
        @Override
        public String type() {
            return object.getClass().getName().replace('.', '/');
        }

        @Override
        public boolean equals(Object other) {
            return other instanceof Fixed it && (object == it.object || object instanceof Number && object.equals(it.object));
        }

        @Override
        public int hashCode() {
            return object instanceof Number ? object.hashCode() : System.identityHashCode(object);
        }
    }

    /** One of several objects. No instruction may use it, since nothing stands for it in the compiled code. */
    record Lost() implements Place {
        @Override
        public String type() {
            return null;
        }
    }

    private final Place place;

    Known(Type type, Place place) {
        super(type);
        this.place = place;
    }

    /** Returns the place of a value, or null if it isn't known. */
    static Place place(BasicValue value) {
        return value instanceof Known it ? it.place : null;
    }

    /** Returns the place of one of two values. */
    static Place either(BasicValue a, BasicValue b) {
        Place one = place(a);
        Place other = place(b);
        if (Objects.equals(one, other)) {
            return one;
        }
        return one != null && one.isAbstract() || other != null && other.isAbstract() ? new Lost() : null;
    }

    @Override
    public boolean equals(Object other) {
        return other instanceof Known it && Objects.equals(getType(), it.getType()) && Objects.equals(place, it.place);
    }

    @Override
    public int hashCode() {
        return Objects.hash(getType(), place);
    }
}
