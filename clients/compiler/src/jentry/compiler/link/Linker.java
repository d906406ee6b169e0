package jentry.compiler.link;

import java.util.ArrayList;
import java.util.HashMap;
import java.util.HashSet;
import java.util.List;
import java.util.Map;
import java.util.Set;
import java.util.TreeSet;
import org.objectweb.asm.Handle;
import org.objectweb.asm.MethodVisitor;
import org.objectweb.asm.Opcodes;
import org.objectweb.asm.Type;
import org.objectweb.asm.tree.AbstractInsnNode;
import org.objectweb.asm.tree.ClassNode;
import org.objectweb.asm.tree.FieldInsnNode;
import org.objectweb.asm.tree.MethodInsnNode;
import org.objectweb.asm.tree.MethodNode;
import org.objectweb.asm.tree.analysis.BasicValue;
import org.objectweb.asm.tree.analysis.Frame;
import jentry.compiler.ProgramClasses;
import jentry.compiler.profile.Instructions;
import jentry.compiler.profile.Members;
import jentry.compiler.profile.Problem;
import jentry.compiler.profile.ProblemException;
import jentry.compiler.rewrite.Lambdas;
import jentry.compiler.rewrite.TailCalls;
import jentry.compiler.rewrite.ThrownTexts;

/**
 * Makes one class of a processor and of what it uses of other classes: methods that it inherits, static methods of others, and methods of the objects
 * that it holds. What these objects hold becomes hidden arguments or constants.
 *
 * <p>Every method is copied as a static one, for the places that its parameters have, so a call of a held object is a call of one known method. Where
 * the code handles such an object there is null in its place; what would use that null is refused.
 */
public final class Linker implements Opcodes {
    /**
     * The linked class.
     *
     * @param node the class: it refers to itself and to Java alone
     * @param captures what it takes from the processor
     * @param constants the values of its static fields, by name
     * @param notes the changes, one per line
     */
    public record Linked(ClassNode node, Captures captures, Map<String, Object> constants, List<String> notes) { }

    /** A copy of a method for the places of its parameters. */
    private record Key(String owner, String name, String descriptor, List<Known.Place> places) { }

    private static final int MOST_COPIES = 250;

    private final ClassNode root;
    private final ClassNode made = new ClassNode();
    private final Classes classes;
    private final Statics statics;
    private final PackedObjects packed;
    private final Representation representation;
    private final Holder holder;
    private final Leaves leaves;
    private final Map<Key, MethodNode> copies = new HashMap<>();
    private final Map<Key, Known.Place> results = new HashMap<>();
    private final Set<Key> open = new HashSet<>();
    private final Set<String> names = new HashSet<>();
    private final Set<String> copied = new TreeSet<>();
    private int texts;

    private Linker(ClassNode root, ProgramClasses program, Holder holder, boolean packs, ClassNode... more) {
        this.root = root;
        this.holder = holder;
        classes = new Classes(program, more);
        classes.add(root);
        statics = new Statics(classes);
        packed = new PackedObjects(classes, packs);
        representation = new Representation(classes, packed);
        leaves = new Leaves(made, holder);
    }

    /** Returns whether a class uses anything that has to be linked: other classes, inherited methods, or values that an instance holds. */
    public static boolean isNeeded(ClassNode node, ProgramClasses program) {
        Classes classes = new Classes(program, node);
        if (!classes.isBelow(node.name, Members.PROCESSOR)) {
            return false;
        }
        boolean isPlain = "java/lang/Object".equals(node.superName) && node.interfaces.contains(Members.PROCESSOR);
        boolean takesValues = node.methods.stream().anyMatch(it -> it.name.equals("<init>") && !it.desc.equals("()V"));
        if (!isPlain || takesValues) {
            return true;
        }
        for (MethodNode method : node.methods) {
            for (AbstractInsnNode at : method.instructions) {
                String owner = at instanceof MethodInsnNode call ? call.owner : at instanceof FieldInsnNode field ? field.owner : node.name;
                boolean isOfOther = !owner.equals(node.name) && (classes.get(owner) != null || Representation.isValue(owner));
                if (!method.name.startsWith("<") && (isOfOther || readsArrays(at) || Streams.begins(at))) {
                    return true;
                }
            }
        }
        return false;
    }

    private static boolean readsArrays(AbstractInsnNode at) {
        return at.getOpcode() == MULTIANEWARRAY || at instanceof FieldInsnNode field && field.desc.startsWith("[[");
    }

    /** Returns whether a class implements EntryProcessor, also by a base class. */
    public static boolean isProcessor(ClassNode node, ProgramClasses program) {
        return isProcessor(node.name, node, program);
    }

    /** Returns whether a type, by its internal name, is EntryProcessor or extends it, as seen from a class. */
    public static boolean isProcessor(String type, ClassNode from, ProgramClasses program) {
        return new Classes(program, from).isBelow(type, Members.PROCESSOR);
    }

    /**
     * Links a class.
     *
     * @param root the processor's class
     * @param packs whether objects of small classes become numbers
     * @param more other classes that were read already
     * @throws ProblemException if the class uses an object in a way that can't be followed
     */
    public static Linked link(ClassNode root, ProgramClasses program, Holder holder, boolean packs, ClassNode... more) throws ProblemException {
        return new Linker(root, program, holder, packs, more).link();
    }

    private Linked link() throws ProblemException {
        made.visit(V1_8, ACC_PUBLIC | ACC_SUPER, root.name, null, "java/lang/Object", new String[] {Members.PROCESSOR});
        made.visitSource(root.sourceFile, null);
        names.add("<init>");
        addConstructor();
        MethodNode wrapper = addProcess();
        TailCalls.replace(made);
        List<String> hidden = new HiddenArguments(made, leaves.hidden().keySet(), wrapper).bind();
        List<Capture> captures = hidden.stream().map(leaves.hidden()::get).toList();
        List<String> notes = new ArrayList<>();
        if (!captures.isEmpty()) {
            notes.add("values that the caller passes in front of the arguments: " + String.join(", ", captures.stream().map(Capture::toString).toList()));
        }
        if (!copied.isEmpty()) {
            notes.add("methods of other classes copied in: " + String.join(", ", copied));
        }
        if (texts > 0) {
            notes.add("texts of exceptions of which the constant parts stay: " + texts);
        }
        return new Linked(made, new Captures(captures, leaves.guards()), leaves.constants(), notes);
    }

    private void addConstructor() {
        MethodVisitor code = made.visitMethod(ACC_PUBLIC, "<init>", "()V", null, null);
        code.visitVarInsn(ALOAD, 0);
        code.visitMethodInsn(INVOKESPECIAL, "java/lang/Object", "<init>", "()V", false);
        code.visitInsn(RETURN);
        code.visitMaxs(1, 1);
    }

    private MethodNode addProcess() throws ProblemException {
        Classes.Method process = classes.virtual(root.name, "process", Members.PROCESS);
        if (process == null) {
            throw new ProblemException(Instructions.problem(root, "it has no public method process(MutableEntry, Object...)", "write process in the class itself"));
        }
        Classes.Method target = behindBridge(process);
        Known.Place self = new Known.Held(List.of(), root.name);
        List<Known.Place> places = new ArrayList<>(List.of(self));
        places.add(null);
        places.add(null);
        MethodNode copy = copy(target, places);
        if (result(target, places) != null) {
            throw new ProblemException(Instructions.problem(target.owner(), target.node(), "the result is an object that the processor holds",
                "return a Long, an Integer or null"));
        }
        MethodVisitor code = made.visitMethod(ACC_PUBLIC | ACC_VARARGS, "process", Members.PROCESS, null, null);
        code.visitInsn(ACONST_NULL);
        code.visitVarInsn(ALOAD, 1);
        code.visitVarInsn(ALOAD, 2);
        code.visitMethodInsn(INVOKESTATIC, made.name, copy.name, copy.desc, false);
        code.visitInsn(ARETURN);
        code.visitMaxs(3, 3);
        return made.methods.get(made.methods.size() - 1);
    }

    /** Returns the method that javac's bridge calls. */
    private Classes.Method behindBridge(Classes.Method method) {
        if ((method.node().access & ACC_BRIDGE) != 0) {
            for (AbstractInsnNode at : method.node().instructions) {
                Classes.Method called = at instanceof MethodInsnNode call && call.name.equals("process")
                    && call.desc.startsWith(Members.PROCESS.substring(0, Members.PROCESS.indexOf(')'))) ? classes.virtual(root.name, call.name, call.desc) : null;
                if (called != null) {
                    return called;
                }
            }
        }
        return method;
    }

    /** Returns what a lambda captures by naming members of the object around it: "the lambda captures this, a Service, and ", or "" for other objects. */
    String captureOfThis(Known.Place place) {
        boolean isCaptured = place instanceof Known.Held held && !held.path().isEmpty()
            && held.path().get(0).equals(new Capture.Step(root.name, Lambdas.CAPTURED + 1));
        MethodNode process = isCaptured ? Instructions.method(root, "process", Members.PROCESS) : null;
        if (process == null) {
            return "";
        }
        for (AbstractInsnNode at : process.instructions) {
            if (at instanceof MethodInsnNode call && call.getOpcode() != INVOKESTATIC && call.name.startsWith("lambda$")) {
                return "the lambda captures this, a " + Instructions.nameOf(call.owner) + ", and ";
            }
        }
        return "";
    }

    // ---- copies

    /** Returns the copy of a method for parameters of these places. */
    MethodNode copy(Classes.Method method, List<Known.Place> places) throws ProblemException {
        List<Known.Place> significant = significant(places);
        Key key = new Key(method.owner().name, method.node().name, method.node().desc, significant);
        MethodNode found = copies.get(key);
        if (found != null) {
            return found;
        } else if (copies.size() >= MOST_COPIES) {
            throw new ProblemException(Instructions.problem(root, "it uses more than " + MOST_COPIES + " methods", "use fewer"));
        }
        boolean isStatic = Instructions.isStatic(method.node());
        String descriptor = representation.of(method.node().desc, isStatic ? null : method.owner().name);
        MethodNode copy = new MethodNode(ASM9, ACC_PRIVATE | ACC_STATIC, name(method), descriptor, null, null);
        copies.put(key, copy);
        made.methods.add(copy);
        if (!method.owner().name.equals(root.name)) {
            copied.add(Instructions.nameOf(method.owner().name) + "." + method.node().name);
        }
        texts += ThrownTexts.simplify(method.owner(), method.node(), this::isPlainEnum);
        new CopiedCode(this, method, significant, copy).write();
        return copy;
    }

    /** Returns whether a class is an enum whose constants have their names as texts. */
    private boolean isPlainEnum(String type) {
        ClassNode node = classes.isEnum(type) ? classes.get(type) : null;
        return node != null && (node.access & ACC_FINAL) != 0 && classes.virtual(type, "toString", "()Ljava/lang/String;") == null;
    }

    /** Returns the copy of a method that a lambda refers to. */
    MethodNode copyOf(Handle body, List<Known.Place> places, AbstractInsnNode at) throws ProblemException {
        Known.Place receiver = body.getTag() == H_INVOKESTATIC || places.isEmpty() ? null : places.get(0);
        Classes.Method target = classes.virtual(receiver == null || receiver.type() == null ? body.getOwner() : receiver.type(), body.getName(), body.getDesc());
        if (target == null || body.getTag() != H_INVOKESTATIC && receiver == null) {
            throw new ProblemException(new Problem(Instructions.nameOf(root.name), "", Instructions.line(at), "a lambda or a method reference to a method that isn't "
                + "known: " + body.getName(), "write the loop itself"));
        }
        return copy(target, places);
    }

    /** Adds an empty static method. */
    MethodNode addMethod(String start, String descriptor) {
        String name = start;
        while (!names.add(name)) {
            name += "_";
        }
        MethodNode method = new MethodNode(ASM9, ACC_PRIVATE | ACC_STATIC, name, descriptor, null, null);
        made.methods.add(method);
        return method;
    }

    private static List<Known.Place> significant(List<Known.Place> places) {
        List<Known.Place> all = new ArrayList<>();
        places.forEach(it -> all.add(it instanceof Known.Fixed fixed && fixed.object() instanceof Number ? null : it));
        return all;
    }

    private String name(Classes.Method method) {
        String owner = method.owner().name.substring(method.owner().name.lastIndexOf('/') + 1);
        String name = method.owner().name.equals(root.name) ? method.node().name : owner + "_" + method.node().name;
        while (!names.add(name)) {
            name += "_";
        }
        return name;
    }

    /** Returns the place of what a method returns for parameters of these places, or null if it is no known object. */
    Known.Place result(Classes.Method method, List<Known.Place> places) {
        Type type = Type.getReturnType(method.node().desc);
        if (type.getSort() != Type.OBJECT || Leaves.isLeaf(type.getDescriptor()) && !type.getInternalName().equals("java/lang/Object")) {
            return null;
        }
        Key key = new Key(method.owner().name, method.node().name, method.node().desc, significant(places));
        if (!results.containsKey(key)) {
            if (!open.add(key)) {
                return null;
            }
            results.put(key, computedResult(method, key.places));
            open.remove(key);
        }
        return results.get(key);
    }

    private Known.Place computedResult(Classes.Method method, List<Known.Place> places) {
        Frame<BasicValue>[] frames = KnownValues.of(method.owner(), method.node(), new FoundPlaces(this), places);
        Known result = null;
        for (int i = 0; i < frames.length; i++) {
            if (frames[i] != null && method.node().instructions.get(i).getOpcode() == ARETURN) {
                Known now = (Known) frames[i].getStack(frames[i].getStackSize() - 1);
                result = result == null ? now : new Known(now.getType(), Known.either(result, now));
            }
        }
        return result == null ? null : Known.place(result);
    }

    // ---- what the parts share

    ClassNode made() {
        return made;
    }

    Classes classes() {
        return classes;
    }

    Statics statics() {
        return statics;
    }

    PackedObjects packed() {
        return packed;
    }

    Representation representation() {
        return representation;
    }

    Holder holder() {
        return holder;
    }

    Leaves leaves() {
        return leaves;
    }
}
