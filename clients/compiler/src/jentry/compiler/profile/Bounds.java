package jentry.compiler.profile;

import java.util.HashMap;
import java.util.IdentityHashMap;
import java.util.Map;
import org.objectweb.asm.Opcodes;
import org.objectweb.asm.tree.AbstractInsnNode;
import org.objectweb.asm.tree.ClassNode;
import org.objectweb.asm.tree.JumpInsnNode;
import org.objectweb.asm.tree.LabelNode;
import org.objectweb.asm.tree.LookupSwitchInsnNode;
import org.objectweb.asm.tree.MethodNode;
import org.objectweb.asm.tree.TableSwitchInsnNode;

/**
 * The maximum cost of an invocation, over all paths of a class without backward branches.
 *
 * @param steps the number of instructions
 * @param words the sum over all arrays of the length plus 1
 * @param slots the locals and operands of all active methods together
 * @param depth the number of active methods
 */
public record Bounds(long steps, long words, long slots, long depth) {
    /** The limits of the server. */
    public static final Bounds LIMITS = new Bounds(4_000_000, 65_536, 8_192, 64);

    private static final Bounds NOTHING = new Bounds(0, 0, 0, 0);
    private static final long CEILING = 1L << 40;

    /** Returns the bounds of `process`. */
    public static Bounds of(ClassNode owner) {
        return new Walk(owner).method(Instructions.method(owner, "process", Members.PROCESS));
    }

    /** Returns the bounds as `jentry check` prints them. */
    @Override
    public String toString() {
        return "steps=" + steps + " words=" + words + " slots=" + slots + " depth=" + depth;
    }

    private static Bounds most(Bounds a, Bounds b) {
        return new Bounds(Math.max(a.steps, b.steps), Math.max(a.words, b.words), Math.max(a.slots, b.slots), Math.max(a.depth, b.depth));
    }

    private static Bounds sum(Bounds a, Bounds b) {
        return new Bounds(Math.min(CEILING, a.steps + b.steps), Math.min(CEILING, a.words + b.words), a.slots + b.slots, a.depth + b.depth);
    }

    /** Finds the longest paths of each method once. Branches only lead forward, so one backward pass over the code is enough. */
    private static final class Walk implements Opcodes {
        private final ClassNode owner;
        private final Map<MethodNode, Bounds> known = new IdentityHashMap<>();

        Walk(ClassNode owner) {
            this.owner = owner;
        }

        Bounds method(MethodNode method) {
            Bounds found = known.get(method);
            if (found != null) {
                return found;
            }
            known.put(method, NOTHING);
            Map<LabelNode, Bounds> rest = new HashMap<>();
            Bounds behind = NOTHING;
            AbstractInsnNode[] all = method.instructions.toArray();
            for (int i = all.length - 1; i >= 0; i--) {
                if (all[i] instanceof LabelNode label) {
                    rest.put(label, behind);
                } else if (all[i].getOpcode() >= 0) {
                    behind = before(all[i], behind, rest);
                }
            }
            Bounds bounds = new Bounds(behind.steps, behind.words, behind.slots + method.maxLocals + method.maxStack, behind.depth + 1);
            known.put(method, bounds);
            return bounds;
        }

        private Bounds before(AbstractInsnNode at, Bounds behind, Map<LabelNode, Bounds> rest) {
            int opcode = at.getOpcode();
            Bounds onward = opcode == GOTO || opcode >= IRETURN && opcode <= RETURN || opcode == ATHROW ? NOTHING : behind;
            if (at instanceof JumpInsnNode jump) {
                onward = most(onward, rest.getOrDefault(jump.label, NOTHING));
            } else if (at instanceof TableSwitchInsnNode it) {
                onward = most(it.dflt, it.labels, rest);
            } else if (at instanceof LookupSwitchInsnNode it) {
                onward = most(it.dflt, it.labels, rest);
            }
            MethodNode callee = Instructions.callee(owner, at);
            Bounds inside = callee == null ? NOTHING : method(callee);
            Bounds most = most(onward, new Bounds(0, 0, inside.slots, inside.depth));
            Bounds own = new Bounds(inside.steps + Throws.steps(at), inside.words + words(at), 0, 0);
            return sum(own, most);
        }

        private static Bounds most(LabelNode otherwise, Iterable<LabelNode> labels, Map<LabelNode, Bounds> rest) {
            Bounds all = rest.getOrDefault(otherwise, NOTHING);
            for (LabelNode label : labels) {
                all = Bounds.most(all, rest.getOrDefault(label, NOTHING));
            }
            return all;
        }

        private static long words(AbstractInsnNode at) {
            boolean makes = at.getOpcode() == NEWARRAY && Instructions.pushed(Instructions.previous(at)) instanceof Integer;
            return makes ? (Integer) Instructions.pushed(Instructions.previous(at)) + 1L : 0;
        }

        private static Bounds most(Bounds a, Bounds b) {
            return Bounds.most(a, b);
        }
    }
}
