package jentry.compiler;

import java.util.ArrayList;
import java.util.List;
import java.util.Random;

/**
 * Generates random structured processors: nested loops of all kinds with break, continue and labels; arrays, tables, helper methods, try statements
 * and library calls, with small types and with numbers at the limits of their types. Half of them hold values that a constructor sets.
 *
 * <p>Most loops are ended by a counter. Some programs aren't bounded or are too large: the compiler must refuse these.
 */
final class ProgramGenerator {
    private static final int MOST_PASSES = 160;

    private final Random random;
    private final StringBuilder text = new StringBuilder();
    private final List<String> ints = new ArrayList<>();
    private final List<String> longs = new ArrayList<>();
    private final List<String> arrays = new ArrayList<>();
    private final List<String> labels = new ArrayList<>();
    private final List<String> counters = new ArrayList<>();
    private int names;
    private int passes = 1;
    private int loops;
    private boolean isHelper;
    private final boolean holds;

    ProgramGenerator(long seed) {
        random = new Random(seed);
        holds = random.nextBoolean();
    }

    String program(String name) {
        text.append("import java.util.*;\nimport javax.cache.processor.*;\n");
        text.append("public class ").append(name).append(" implements EntryProcessor<Long, Long, Object> {\n");
        text.append("static final long[] TABLE = {").append(literals()).append("};\nstatic final int[] SMALL = {3, 1, 4, 1, 5};\n");
        text.append("static final Long BOX = ").append(literal()).append("L;\n");
        text.append(holds ? held(name) : "private final long limit = " + literal() + "L;\n");
        text.append("public Object process(MutableEntry<Long, Long> entry, Object... args) {\n");
        text.append("int a = ").append(literal()).append(";\nlong x = entry.exists() ? entry.getValue() : entry.getKey();\nlong y = 0;\n");
        text.append("long[] data = new long[4];\nint[] cells = new int[3];\n");
        text.append("byte[] bytes = {3, -7, 127, ").append(random.nextInt(100)).append("};\nchar[] chars = {'a', 65535, 0, 7};\nshort[] shorts = new short[4];\n");
        text.append("boolean[] flags = new boolean[4];\n");
        ints.add("a");
        longs.addAll(List.of("x", "y"));
        arrays.addAll(List.of("data", "cells"));
        block(3 + random.nextInt(4), 3);
        text.append(pick("return x ^ y + a;", "entry.setValue(x); return a;", "if (a > 3) { entry.remove(); } return y;", "return (x & 1) == 0 ? (Object) x : (Object) a;"));
        text.append("\n}\n");
        helper();
        text.append("}\n");
        return text.toString();
    }

    /** Returns fields of several types, and the constructor that sets them. */
    private static String held(String name) {
        return "private final long limit;\nprivate int step;\nprivate final boolean isOdd;\nprivate final Long box;\nprivate final short small;\n"
            + name + "(long limit, int step, boolean isOdd, Long box, short small) {\nthis.limit = limit;\nthis.step = step;\nthis.isOdd = isOdd;\n"
            + "this.box = step == 3 ? null : box;\nthis.small = small;\n}\n"
            + "private long held(Object[] all, long v) {\nreturn v + limit * (box == null ? small : box) + (all.length > 3 ? ((Number) all[3]).longValue() : step);\n}\n";
    }

    private void helper() {
        isHelper = true;
        ints.clear();
        longs.clear();
        arrays.clear();
        text.append("private static long help(long p, int q, long[] data) {\nint n = q;\nlong r = p;\n");
        ints.addAll(List.of("n", "q"));
        longs.addAll(List.of("r", "p"));
        arrays.add("data");
        passes = 16;
        block(2, 2);
        text.append("return r + n;\n}\nprivate static int digit(char c, byte b) {\nreturn c * 7 + b;\n}\n");
    }

    private String literals() {
        StringBuilder all = new StringBuilder();
        for (int i = 0; i < 4; i++) {
            all.append(i == 0 ? "" : ", ").append(literal());
        }
        return all.toString();
    }

    private String literal() {
        return String.valueOf(switch (random.nextInt(4)) {
            case 0 -> random.nextInt(4);
            case 1 -> random.nextInt(100) - 20;
            case 2 -> random.nextInt(100_000);
            default -> random.nextInt(10) - 5;
        });
    }

    private String pick(String... choices) {
        return choices[random.nextInt(choices.length)];
    }

    private static String any(List<String> names, Random random) {
        return names.get(random.nextInt(names.size()));
    }

    private String fresh(String prefix) {
        return prefix + names++;
    }

    // ---- expressions

    private String intOf(int depth) {
        if (depth == 0 || random.nextInt(4) == 0) {
            String counter = counters.isEmpty() ? literal() : "(int) " + any(counters, random);
            String end = random.nextInt(3) > 0 ? literal() : pick("Integer.MAX_VALUE", "Integer.MIN_VALUE", "(Integer.MAX_VALUE - 4)", "(Integer.MIN_VALUE + 4)");
            String held = holds && !isHelper ? pick("step", "(isOdd ? 1 : small)") : literal();
            return pick(any(ints, random), counter, end, isHelper ? "3" : "args.length", "(int) " + any(longs, random), held);
        }
        String left = intOf(depth - 1);
        String right = intOf(depth - 1);
        return switch (random.nextInt(15)) {
            case 0 -> "(" + left + " * " + right + ")";
            case 1 -> "(" + left + " - " + right + ")";
            case 2 -> "(" + left + " ^ " + right + ")";
            case 12 -> pick("(byte) ", "(short) ", "(char) ", "-", "~") + "(" + left + ")";
            case 13 -> "(" + left + pick(" << ", " >>> ", " >> ") + right + ")";
            case 14 -> isHelper ? left : pick("bytes", "chars", "shorts") + "[(" + left + ") & 3]";
            case 3 -> "(" + left + " & 15)";
            case 4 -> "(" + left + " >> (" + right + " & 7))";
            case 5 -> "(" + condition(depth - 1) + " ? " + left + " : " + right + ")";
            case 6 -> "SMALL[(" + left + " & 3)]";
            case 7 -> pick("Math.abs", "Integer.bitCount", "Integer.signum", "Integer.highestOneBit") + "(" + left + ")";
            case 8 -> pick("Math.floorMod", "Integer.compare", "Math.max", "Math.min") + "(" + left + ", " + pick("7", "-3", right + " | 1") + ")";
            case 9 -> "(" + left + " % " + pick("5", "(" + right + " | 1)", "-4") + ")";
            case 10 -> "digit((char) " + left + ", (byte) " + right + ")";
            default -> "(" + left + " + " + right + ")";
        };
    }

    private String longOf(int depth) {
        if (depth == 0 || random.nextInt(4) == 0) {
            String end = random.nextInt(3) > 0 ? literal() + "L" : pick("Long.MAX_VALUE", "Long.MIN_VALUE", "(Long.MAX_VALUE - 4)", "(Long.MIN_VALUE + 4)", "(1L << 40)");
            String held = holds && !isHelper ? "held(args, " + any(longs, random) + ")" : literal() + "L";
            return pick(any(longs, random), any(longs, random), end, any(ints, random), isHelper ? "BOX" : "limit", held);
        }
        String left = longOf(depth - 1);
        String right = longOf(depth - 1);
        return switch (random.nextInt(15)) {
            case 0 -> "(" + left + " * " + right + ")";
            case 1 -> "(" + left + " - " + right + ")";
            case 2 -> "(" + left + " ^ " + right + ")";
            case 13 -> "(" + left + pick(" << ", " >> ") + intOf(depth - 1) + ")";
            case 14 -> "(" + pick(any(longs, random), "Long.MAX_VALUE - 3", "Long.MIN_VALUE") + pick(" + ", " - ") + (isHelper ? "q" : "args.length") + ")";
            case 3 -> "(" + left + " | " + right + ")";
            case 4 -> "(" + left + " >>> (" + intOf(depth - 1) + " & 31))";
            case 5 -> "(" + condition(depth - 1) + " ? " + left + " : " + right + ")";
            case 6 -> "TABLE[(" + intOf(depth - 1) + " & 3)]";
            case 7 -> pick("Math.abs", "Long.bitCount", "Long.signum", "Long.reverse", "Long.numberOfTrailingZeros") + "(" + left + ")";
            case 8 -> pick("Math.floorMod", "Long.compare", "Math.max", "Math.min", "Long.remainderUnsigned") + "(" + left + ", " + pick("7L", right + " | 1") + ")";
            case 9 -> "(" + left + " / " + pick("3L", "(" + right + " | 1)", right) + ")";
            case 10 -> arrays.contains("data") ? "data[(" + intOf(depth - 1) + ") & 3]" : left;
            case 11 -> isHelper ? left : "help(" + left + ", " + intOf(0) + ", data)";
            default -> "(" + left + " + " + right + ")";
        };
    }

    private String condition(int depth) {
        return switch (random.nextInt(7)) {
            case 0 -> intOf(depth) + pick(" < ", " > ", " == ", " != ", " <= ", " >= ") + intOf(depth);
            case 1 -> longOf(depth) + pick(" < ", " > ", " == ", " != ", " <= ", " >= ") + longOf(depth);
            case 2 -> depth == 0 ? any(longs, random) + " > 2" : "(" + condition(depth - 1) + pick(" && ", " || ") + condition(depth - 1) + ")";
            case 3 -> isHelper ? "n > 3" : "args.length > " + random.nextInt(9);
            case 4 -> isHelper ? "(r & 3) == 0" : "args.length > 2 && args[" + random.nextInt(3) + "] instanceof " + pick("Long", "Integer");
            case 5 -> isHelper ? "BOX.equals(r)" : "Objects.equals(entry.getValue(), " + pick("BOX", "args.length > 0 ? args[0] : null", "(Object) entry.getKey()") + ")";
            default -> intOf(depth) + " % 3 == 0";
        };
    }

    // ---- statements

    private void block(int statements, int depth) {
        int intsBefore = ints.size();
        int longsBefore = longs.size();
        for (int i = 0; i < statements; i++) {
            statement(depth);
        }
        while (ints.size() > intsBefore) {
            ints.remove(ints.size() - 1);
        }
        while (longs.size() > longsBefore) {
            longs.remove(longs.size() - 1);
        }
    }

    private void statement(int depth) {
        int kind = random.nextInt(depth > 0 ? 16 : 7);
        switch (kind) {
            case 0 -> text.append(any(longs, random)).append(pick(" = ", " += ", " ^= ", " -= ")).append(longOf(2)).append(";\n");
            case 1 -> text.append(any(ints, random)).append(pick(" = ", " += ", " ^= ")).append(intOf(2)).append(";\n");
            case 2 -> declare();
            case 3 -> text.append("data[(").append(intOf(1)).append(") & 3]").append(pick(" = ", " += ")).append(longOf(2)).append(";\n");
            case 4 -> effect();
            case 5 -> leave();
            case 6 -> text.append(any(longs, random)).append(pick("++", "--")).append(";\n");
            case 7 -> branch(depth);
            case 8 -> choose(depth);
            case 9 -> attempt(depth);
            case 10 -> eachArgument(depth);
            default -> loop(depth);
        }
    }

    private void declare() {
        String name = fresh("v");
        boolean isInt = random.nextBoolean();
        text.append(isInt ? "int " : "long ").append(name).append(" = ").append(isInt ? intOf(2) : longOf(2)).append(";\n");
        (isInt ? ints : longs).add(name);
    }

    private void effect() {
        if (isHelper) {
            text.append("r += n;\n");
            return;
        }
        text.append(pick("entry.setValue(x);\n", "if (entry.exists()) { y += entry.getValue(); }\n", "cells[(" + intOf(1) + ") & 1] += 3;\n",
            "if (x == 77) { entry.remove(); }\n", "if (args.length > 1 && args[1] instanceof Long) { y += (Long) args[1]; }\n",
            "if (args.length > 0 && args[0] != null) { x ^= ((Number) args[0]).longValue(); }\n", "data[(a) & 3] = cells[1];\n",
            "bytes[(" + intOf(1) + ") & 3]" + pick(" += ", " ^= ", " <<= ", " >>>= ") + intOf(1) + ";\n", "chars[(" + intOf(1) + ") & 3]" + pick("++", "--") + ";\n",
            "shorts[(a) & 3]" + pick(" -= ", " *= ", " |= ") + intOf(1) + ";\n", "flags[(" + intOf(1) + ") & 3] ^= " + condition(1) + ";\n",
            "if (flags[(a) & 3]) { y++; }\n"));
    }

    private void leave() {
        String out = labels.isEmpty() ? "" : pick("break", "continue") + (random.nextBoolean() ? "" : " " + any(labels, random)) + ";";
        boolean inLoop = !out.isEmpty();
        text.append("if (").append(condition(1)).append(") { ").append(inLoop && random.nextInt(4) > 0 ? out : isHelper ? "return r;" : "return x;").append(" }\n");
    }

    private void branch(int depth) {
        text.append("if (").append(condition(2)).append(") {\n");
        block(1 + random.nextInt(2), depth - 1);
        if (random.nextBoolean()) {
            text.append("} else {\n");
            block(1 + random.nextInt(2), depth - 1);
        }
        text.append("}\n");
    }

    private void choose(int depth) {
        text.append("switch ((int) (").append(intOf(1)).append(pick(" & 3", " % 5", "")).append(")) {\n");
        for (int i = 0; i < 3; i++) {
            text.append("case ").append(random.nextInt(2) == 0 ? i : i * 100 + 7).append(":\n").append(any(longs, random)).append(" += ").append(i + 1).append(";\n");
            text.append(random.nextBoolean() ? "" : any(ints, random) + " ^= 1;\n");
            if (labels.isEmpty()) {
                text.append(random.nextInt(3) == 0 ? "" : "break;\n");
            } else {
                text.append(pick("", "break;\n", "continue;\n"));
            }
        }
        text.append("default:\n").append(any(longs, random)).append("--;\n}\n");
    }

    private void attempt(int depth) {
        String target = any(longs, random);
        text.append("try {\n").append(target).append(" += ").append(longOf(1)).append(" / ").append(pick(any(longs, random), intOf(1), "3")).append(";\n");
        text.append(pick("", target + " = Math.addExact(" + target + ", " + longOf(1) + ");\n", any(ints, random) + " %= " + intOf(1) + ";\n"));
        text.append("} catch (ArithmeticException e").append(names++).append(") {\n").append(target).append(" = ").append(longOf(1)).append(";\n");
        if (depth > 1 && random.nextInt(3) == 0) {
            block(1, depth - 2);
        }
        text.append("}\n");
    }

    private void eachArgument(int depth) {
        if (isHelper || passes * 8 > MOST_PASSES || loops > 5) {
            declare();
            return;
        }
        loops++;
        String one = fresh("o");
        text.append("for (Object ").append(one).append(" : args) {\nif (").append(one).append(pick(" == null", " instanceof Integer"))
            .append(") { continue; }\n").append(any(longs, random)).append(" += ").append(pick("(Long) " + one, "((Number) " + one + ").longValue()")).append(";\n");
        body(8, null, depth);
        text.append("}\n");
    }

    private void body(int count, String label, int depth) {
        int before = passes;
        passes *= count;
        labels.add(label == null ? "" : label);
        if (label == null) {
            labels.remove(labels.size() - 1);
        }
        block(1 + random.nextInt(3), depth - 1);
        if (label != null) {
            labels.remove(labels.size() - 1);
        }
        passes = before;
    }

    private void loop(int depth) {
        int count = 1 + random.nextInt(6);
        if (passes * count > MOST_PASSES || loops > 5) {
            declare();
            return;
        }
        loops++;
        String i = fresh("i");
        String label = fresh("l");
        String limit = random.nextInt(4) == 0 && !isHelper && passes * 8 <= MOST_PASSES ? "args.length" : arrays.contains("data") && random.nextInt(4) == 0
            ? "data.length" : String.valueOf(count);
        int most = limit.equals("args.length") ? 8 : limit.equals("data.length") ? 4 : count;
        switch (random.nextInt(9)) {
            case 6 -> text.append(label).append(": for (int ").append(i).append(" = Integer.MAX_VALUE - ").append(count - 1).append("; ").append(i).append(" > 0; ").append(i)
                .append("++) {\n");
            case 7 -> text.append(label).append(": for (long ").append(i).append(" = Long.MIN_VALUE + ").append(count - 1).append("; ").append(i).append(" < 0; ").append(i)
                .append("--) {\n");
            case 8 -> text.append(label).append(": for (").append(pick("byte ", "short ")).append(i).append(" = 1; ").append(i).append(" > 0 && ").append(i)
                .append(" < ").append(1 << count - 1).append("; ").append(i).append(pick(" *= 2", " <<= 1", " += " + i)).append(") {\n");
            case 0 -> text.append(label).append(": for (int ").append(i).append(" = ").append(count).append("; ").append(i).append(" > 0; ").append(i).append("--) {\n");
            case 1 -> text.append("int ").append(i).append(" = 0;\n").append(label).append(": while (").append(i).append(" < ").append(limit)
                .append(pick("", " && " + condition(1))).append(") {\n").append(i).append("++;\n");
            case 2 -> text.append("int ").append(i).append(" = 0;\n").append(label).append(": do {\n").append(i).append("++;\n");
            case 3 -> text.append(label).append(": for (long ").append(i).append(" = 1; ").append(i).append(" <= ").append(count).append("; ").append(i).append("++) {\n");
            case 4 -> text.append(label).append(": for (int ").append(i).append(" = 0, k").append(i).append(" = 20; ").append(i).append(" < k").append(i)
                .append("; ").append(i).append(" += 3, k").append(i).append("--) {\n");
            default -> text.append(label).append(": for (int ").append(i).append(" = 0; ").append(i).append(" < ").append(limit).append("; ").append(i).append("++) {\n");
        }
        boolean isDo = text.substring(text.lastIndexOf(label)).startsWith(label + ": do");
        List<String> readable = text.substring(text.lastIndexOf(label)).startsWith(label + ": for (long") ? longs : ints;
        boolean isSmall = text.substring(text.lastIndexOf(label)).matches("(?s)" + label + ": for \\((byte|short) .*");
        boolean isWritten = !isSmall && random.nextInt(12) == 0;
        if (isWritten) {
            readable.add("(" + i + ")");
        }
        counters.add(i);
        body(most, label, depth);
        counters.remove(i);
        if (isWritten) {
            readable.remove("(" + i + ")");
        }
        text.append(isDo ? "} while (" + i + " < " + limit + pick("", " && " + condition(1)) + ");\n" : "}\n");
    }
}
