package jentry.compiler.rewrite;

import java.util.Set;
import org.objectweb.asm.tree.ClassNode;
import org.objectweb.asm.tree.FieldNode;
import org.objectweb.asm.tree.MethodNode;
import jentry.compiler.profile.Instructions;

/** The values that the initialiser of a class gives to its static fields, as far as the compiler can follow it without running it. */
public final class InitialValues {
    private final Initialisers initialisers;

    /** Follows the initialiser of a class. */
    public InitialValues(ClassNode owner) {
        initialisers = new Initialisers(owner, Set.of(), true);
        MethodNode initialiser = Instructions.method(owner, "<clinit>", "()V");
        if (initialiser != null) {
            try {
                initialisers.run(initialiser);
            } catch (Initialisers.UnsupportedException e) {
                throw new IllegalStateException("a lenient run leaves out what it can't follow", e);
            }
        }
    }

    /** Returns the value of a field: a number or an array of numbers. Returns null if it isn't known, or is null. */
    public Object of(FieldNode field) {
        Object value = initialisers.value(field);
        return value instanceof Initialisers.Box box ? box.number() : value == Initialisers.NULL ? null : value;
    }
}
