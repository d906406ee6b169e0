package jentry.compiler.rewrite;

import static java.util.Map.entry;

import java.io.IOException;
import java.io.InputStream;
import java.io.UncheckedIOException;
import java.util.ArrayDeque;
import java.util.Deque;
import java.util.HashMap;
import java.util.Map;
import java.util.Set;
import java.util.TreeSet;
import org.objectweb.asm.ClassReader;
import org.objectweb.asm.Opcodes;
import org.objectweb.asm.tree.AbstractInsnNode;
import org.objectweb.asm.tree.ClassNode;
import org.objectweb.asm.tree.MethodInsnNode;
import org.objectweb.asm.tree.MethodNode;
import org.objectweb.asm.tree.TypeInsnNode;
import jentry.compiler.profile.Instructions;
import jentry.compiler.profile.Members;
import jentry.compiler.profile.ProblemException;

/**
 * Copies the methods of jentry.compiler.library into the class as private static methods, in place of JDK methods that the server doesn't support.
 */
final class LibraryCalls implements Opcodes {
    private static final String LIBRARY = "/jentry/compiler/library/";
    private static final Map<String, String> LIBRARIES = Map.ofEntries(entry("java/lang/Long", "LongMethods"), entry("java/lang/Integer", "IntegerMethods"),
        entry("java/lang/Math", "MathMethods"), entry("java/lang/StrictMath", "MathMethods"), entry("java/util/Objects", "ObjectsMethods"),
        entry("java/lang/Object", "ObjectMethods"), entry(Members.BOOLEAN, "BooleanMethods"), entry("java/util/Arrays", "ArraysMethods"),
        entry("java/lang/Enum", "EnumMethods"),
        entry("java/util/concurrent/TimeUnit", "TimeUnitMethods"), entry("java/time/LocalDate", "LocalDateMethods"),
        entry("java/time/DayOfWeek", "DayOfWeekMethods"), entry("java/time/Month", "MonthMethods"));
    private static final Map<String, ClassNode> LOADED = new HashMap<>();

    private final ClassNode owner;
    private final Map<String, MethodNode> copies = new HashMap<>();
    private final Set<String> copied = new TreeSet<>();

    private LibraryCalls(ClassNode owner) {
        this.owner = owner;
    }

    /** Replaces the calls, including those in the copied methods. Returns the names of the methods. */
    static Set<String> replace(ClassNode owner) throws ProblemException {
        LibraryCalls calls = new LibraryCalls(owner);
        calls.refuseIdentity();
        Deque<MethodNode> open = new ArrayDeque<>(owner.methods);
        while (!open.isEmpty()) {
            MethodNode method = open.poll();
            for (AbstractInsnNode at : method.instructions.toArray()) {
                MethodNode template = at instanceof MethodInsnNode call ? template(call) : null;
                if (template != null) {
                    calls.replace(method, (MethodInsnNode) at, template, open);
                }
            }
        }
        return calls.copied;
    }

    private void replace(MethodNode method, MethodInsnNode call, MethodNode template, Deque<MethodNode> open) {
        String key = call.owner + "." + call.name + template.desc;
        MethodNode mine = copies.get(key);
        if (mine == null) {
            String name = call.owner.substring(call.owner.lastIndexOf('/') + 1) + "_" + call.name;
            while (Instructions.method(owner, name, template.desc) != null) {
                name += "_";
            }
            mine = new MethodNode(ASM9, ACC_PRIVATE | ACC_STATIC | ACC_SYNTHETIC, name, template.desc, null, null);
            template.accept(mine);
            mine.access = ACC_PRIVATE | ACC_STATIC | ACC_SYNTHETIC;
            mine.name = name;
            owner.methods.add(mine);
            open.add(mine);
            copies.put(key, mine);
            copied.add(Instructions.nameOf(call.owner) + "." + call.name);
        }
        method.instructions.set(call, new MethodInsnNode(INVOKESTATIC, owner.name, mine.name, template.desc, false));
    }

    /** Returns the replacement of the called method, with the receiver as its first parameter, or null. */
    private static MethodNode template(MethodInsnNode call) {
        boolean isOwn = call.owner.startsWith(LIBRARY.substring(1));
        String library = isOwn ? call.owner.substring(LIBRARY.length() - 1) : LIBRARIES.get(call.owner);
        if (library == null || Members.isLibrary(call) || call.name.startsWith("<")) {
            return null;
        }
        String descriptor = call.getOpcode() == INVOKESTATIC ? call.desc : "(L" + call.owner + ";" + call.desc.substring(1);
        return Instructions.method(load(library), call.name, descriptor);
    }

    private static synchronized ClassNode load(String library) {
        return LOADED.computeIfAbsent(library, name -> {
            try (InputStream in = LibraryCalls.class.getResourceAsStream(LIBRARY + name + ".class")) {
                ClassNode node = new ClassNode();
                new ClassReader(in).accept(node, ClassReader.SKIP_FRAMES | ClassReader.SKIP_DEBUG);
                return node;
            } catch (IOException e) {
                throw new UncheckedIOException("the compiler's own " + name + " can't be read", e);
            }
        });
    }

    /** Refuses equals of two objects unless they are boxes or null, because the replacement would compare the identity of others. */
    private void refuseIdentity() throws ProblemException {
        ValueSources sources = new ValueSources(owner);
        for (MethodNode method : owner.methods) {
            for (AbstractInsnNode at : method.instructions) {
                boolean isEquals = at instanceof MethodInsnNode call && call.name.equals("equals")
                    && (call.owner.equals("java/util/Objects") || call.owner.equals("java/lang/Object"));
                if (isEquals && sources.origin(method, at, 1) != null && !sources.isMadeBy(method, at, 1, LibraryCalls::makesBox)) {
                    throw new ProblemException(Instructions.problem(owner, method, at, "equals of an object that may be no number or Boolean",
                        "cast to Long, Integer or Boolean first"));
                }
            }
        }
    }

    private static boolean makesBox(AbstractInsnNode at) {
        if (at instanceof MethodInsnNode call) {
            return call.name.equals("valueOf") || call.name.equals("getKey") || call.name.equals("getValue");
        }
        return at.getOpcode() == AALOAD || at.getOpcode() == ACONST_NULL
            || at.getOpcode() == CHECKCAST && ((TypeInsnNode) at).desc.startsWith("java/lang/");
    }
}
