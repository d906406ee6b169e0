package jentry.compiler;

import java.util.Random;

/**
 * Generates random processors whose loops shrink a value: by bits, shifts, quotients, steps, remainders and halves, by Newton's method and in rings, with
 * tests that fit and tests that don't. A third of them hold values that a constructor sets, and a third are lambdas that capture such values; these are
 * where values start, limits and steps. Some of the loops may never end: the compiler must refuse these.
 */
final class ShrinkingProgramGenerator {
    private final Random random;
    private final StringBuilder text = new StringBuilder();
    private final Values values;
    private int names;

    /** Where a program has values from that differ from processor to processor. */
    private enum Values { NONE, FIELDS, LAMBDA }

    ShrinkingProgramGenerator(long seed) {
        random = new Random(seed);
        values = Values.values()[random.nextInt(3)];
    }

    String program(String name) {
        int loops = 1 + random.nextInt(2);
        text.append("long key = entry.getKey();\nlong value = entry.exists() ? entry.getValue() : 5;\nlong s = 0;\nint n = args.length;\n");
        for (int i = 0; i < loops; i++) {
            switch (random.nextInt(8)) {
                case 0 -> euclid();
                case 1 -> halving();
                case 2 -> stepping();
                case 3 -> ring();
                case 4 -> newton();
                default -> shrinking(random.nextInt(5) == 0);
            }
        }
        text.append("return s;");
        return switch (values) {
            case NONE -> Javac.processor(name, "Object", text.toString(), "");
            case FIELDS -> Javac.processor(name, "Object", text.toString(), "private final long limit;\nprivate final int step;\nprivate final Long box;\n"
                + "private final boolean isOdd;\n" + name + "(long limit, int step, Long box, boolean isOdd) {\nthis.limit = limit;\nthis.step = step;\n"
                + "this.box = step == 3 ? null : box;\nthis.isOdd = isOdd;\n}\n");
            case LAMBDA -> "import javax.cache.processor.*;\npublic class " + name + " {\nstatic EntryProcessor<Long, Long, Object> of(long limit, int step, Long box, "
                + "boolean isOdd) {\nreturn (entry, args) -> {\n" + text + "\n};\n}\n}\n";
        };
    }

    private String pick(String... choices) {
        return choices[random.nextInt(choices.length)];
    }

    private String start() {
        if (values != Values.NONE && random.nextBoolean()) {
            return pick("limit", "limit ^ key", "-limit", "limit & 0x7FFFFFFFL", "step", "step & 0xFFF", "(box == null ? 3 : box)", "(isOdd ? limit : value)", "box - step");
        }
        return pick("key", "value", "key ^ value", "key & 0xFFFF", "key % 1000", "Math.abs(key)", "key >>> 7", "-value", "value & 0x7FFFFFFFL", "key - value");
    }

    /** Returns a statement that uses a value. */
    private String use(String x) {
        return pick("s = s * 31 + " + x + ";", "s += " + x + " & 7;", "if ((" + x + " & 1) == 0) { s++; } else { s ^= " + x + "; }", "s ^= " + x + " % 10;",
            "if (" + x + " == 77) { break; }", "if (s > 1000000) { return s; }", "s++;") + "\n";
    }

    private String step(String x, boolean isLong) {
        int k = 1 + random.nextInt(random.nextBoolean() ? 3 : 12);
        String box = isLong ? "Long" : "Integer";
        String one = isLong ? "1L" : "1";
        return switch (random.nextInt(14)) {
            case 0, 1 -> x + " &= " + x + " - 1;";
            case 2 -> x + " = (" + x + " - 1) & " + x + ";";
            case 3 -> x + " ^= " + x + " & -" + x + ";";
            case 4 -> x + " " + pick("-=", "^=") + " " + box + "." + pick("lowestOneBit", "highestOneBit") + "(" + x + ");";
            case 5 -> x + " &= ~(" + one + " << " + box + ".numberOfTrailingZeros(" + x + "));";
            case 6, 7 -> x + " >>>= " + k + ";";
            case 8 -> x + " >>= " + k + ";";
            case 9 -> x + " <<= " + k + ";";
            case 10 -> x + " = " + x + pick(" >>> ", " << ") + k + " & " + pick("0x7FFFFFFF", "value", "-2") + ";";
            case 11 -> x + " &= " + x + pick(" << ", " >>> ") + k + ";";
            default -> x + " /= " + pick("2", "10", "-3", "60", "7") + ";";
        };
    }

    private String cast(String step, String x, boolean isLong) {
        return isLong || !step.contains("value") ? step : step.replace("& value", "& (int) value");
    }

    private void shrinking(boolean isNested) {
        boolean isLong = random.nextInt(3) > 0;
        String x = "x" + names++;
        String zero = pick(" != 0", " != 0", " > 0", " > 0", " >= 1", " > 3", " >= 10", " < 0", " != 3", " > -1");
        String ofBits = "(" + x + " & " + pick("1", "6", "0xFF0") + ")" + pick(" != 0", " > 0", " == 2");
        String test = random.nextInt(6) == 0 ? "0 != " + x : random.nextInt(5) == 0 ? ofBits : x + zero;
        String other = pick("", "", "", " && s != 7", " && n < 9");
        String whole = random.nextBoolean() ? test + other : other.isEmpty() ? test : other.substring(4) + " && " + test;
        String step = cast(step(x, isLong), x, isLong) + "\n";
        String declared = (isLong ? "long " : "int ") + x + " = " + (isLong ? "" : "(int) (") + start() + (isLong ? "" : ")");
        if (isNested) {
            text.append("for (int i").append(x).append(" = 0; i").append(x).append(pick(" < 3", " < n")).append("; i").append(x).append("++) {\n");
        }
        switch (random.nextInt(5)) {
            case 0 -> text.append("for (").append(declared).append("; ").append(whole).append("; ").append(step.replace(";\n", "")).append(") {\n").append(use(x)).append("}\n");
            case 1 -> text.append(declared).append(";\ndo {\n").append(use(x)).append(step).append("} while (").append(whole).append(");\n");
            case 2 -> text.append(declared).append(";\nwhile (").append(whole).append(") {\nif (s % 3 == 0) {\n").append(step).append("} else {\n").append(use(x))
                .append(random.nextInt(4) == 0 ? cast(step(x, isLong), x, isLong) : step).append("\n}\n}\n");
            default -> text.append(declared).append(";\nwhile (").append(whole).append(") {\n").append(random.nextBoolean() ? use(x) + step : step + use(x)).append("}\n");
        }
        text.append(isNested ? "}\n" : "");
    }

    private String captured(String name) {
        return values == Values.NONE ? "key" : name;
    }

    private void euclid() {
        String number = pick("long", "int");
        String cast = number.equals("int") ? "(int) " : "";
        String a = "a" + names;
        String b = "b" + names++;
        text.append(number).append(' ').append(a).append(" = ").append(cast).append(pick(captured("limit"), "value", "4660046610375530309L", "(key ^ 7)")).append(";\n");
        text.append(number).append(' ').append(b).append(" = ").append(cast).append(pick(captured("step"), "97", "7540113804746346429L", "(key | 1)")).append(";\n");
        text.append("while (").append(b).append(pick(" != 0", " != 0", " > 0")).append(") {\n").append(number).append(" r = ")
            .append(pick(a + " % " + b, a + " % " + b, a + " - " + a + " / " + b + " * " + b, b + " % " + a)).append(";\n");
        text.append(a).append(" = ").append(b).append(";\n").append(b).append(" = r;\n").append(use(a)).append("}\ns += ").append(a).append(";\n");
    }

    private void stepping() {
        String x = "x" + names++;
        int step = 1 + random.nextInt(400);
        boolean isDown = random.nextBoolean();
        String start = pick("key & 0x3FFF", "key % 9000", "Math.min(key, 5000)", "Math.max(-4000, Math.min(value, 4000))", "n * 100", "key");
        String end = String.valueOf(random.nextInt(2_000) - 1_000);
        String by = pick(String.valueOf(step), "n + " + step, "n");
        if (values != Values.NONE) {
            start = pick(start, "limit & 0xFFF", "Math.max(-3000, Math.min(limit, 4000))", "isOdd ? 5000 : step % 100");
            text.append("long end").append(x).append(" = ").append(pick("step % 700", "Math.max(-900, Math.min(limit, 900))", "limit")).append(";\n");
            text.append("int by").append(x).append(" = ").append(pick("(step & 63) + 20", "Math.max(9, step & 0xFF)", "step & 7")).append(";\n");
            end = pick(end, "end" + x);
            by = pick(by, "by" + x);
        }
        text.append("long ").append(x).append(" = ").append(start).append(";\nwhile (").append(x).append(isDown ? pick(" > ", " >= ") : pick(" < ", " <= "))
            .append(end).append(") {\n").append(x).append(isDown ? " -= " : " += ").append(by).append(";\n").append(use(x)).append("}\n");
    }

    private void ring() {
        String x = "x" + names++;
        String next = pick("(X + 1) % 64", "(X + 5) % 12", "X + 3 & 31", "X * 5 + 1 & 63", "(X + 1) % 64", "(X ^ 3) % 9", "X + 1");
        String test = pick("(B >>> X & 1) == 0", "(B >>> X & 1) == 0", "X != 5", "X % 7 > 2", "(X & 12) < n").replace("B", pick("key", "value", captured("limit")));
        text.append("int ").append(x).append(" = ").append(pick("(int) key", "n", values == Values.NONE ? "7" : "step", "0")).append(";\n");
        String step = x + " = " + next.replace("X", x) + ";\n";
        boolean isFirst = random.nextBoolean();
        text.append(isFirst ? "do {\n" : "while (" + test.replace("X", x) + ") {\n").append(random.nextBoolean() ? use(x) + step : step + use(x))
            .append(isFirst ? "} while (" + test.replace("X", x) + ");\n" : "}\n").append("s += ").append(x).append(";\n");
    }

    private void newton() {
        String number = pick("long", "int");
        String cast = number.equals("int") ? "(int) " : "";
        int at = names++;
        text.append(number).append(" N = ".replace("N", "r" + at)).append(cast).append(pick("key", "value", captured("limit"), "(key & 0x3FFFFFFF)")).append(";\n");
        String step = pick("(X + N / X) / 2", "X + N / X >> 1", "(N / X + X) / 2", "(X + N) / 2").replace("N", "r" + at);
        String from = pick("r" + at, "r" + at + " / 2 + 9", "1000000");
        text.append(number).append(" x").append(at).append(" = ").append(from).append(", y").append(at).append(" = ").append(pick("x" + at + " / 2 + 1", "x" + at + " - 1"))
            .append(";\nwhile (y").append(at).append(" < x").append(at).append(") {\nx").append(at).append(" = y").append(at).append(";\ny").append(at).append(" = ")
            .append(step.replace("X", "x" + at)).append(";\n").append(use("x" + at)).append("}\ns = s * 7 + x").append(at).append(";\n");
    }

    private void halving() {
        String number = pick("long", "int");
        String low = "low" + names;
        String high = "high" + names++;
        String middle = pick("LO + HI >>> 1", "(LO + HI) / 2", "LO + HI >> 1", "LO + (HI - LO) / 2", "LO + HI + 1 >>> 1", "LO + (HI - LO + 1 >>> 1)")
            .replace("LO", low).replace("HI", high);
        text.append(number).append(' ').append(low).append(" = ").append(pick("0", "1", "-1000", "n", "n - 4")).append(";\n");
        text.append(number).append(' ').append(high).append(" = ")
            .append(pick("1 << 20", "1000000", "n * 9", "77", values == Values.NONE ? "-3" : "(step & 0xFFFF)")).append(";\n");
        text.append("while (").append(pick("LO < HI", "LO < HI", "LO <= HI", "HI - LO > 1", "LO + 1 < HI", "HI > LO").replace("LO", low).replace("HI", high)).append(") {\n");
        text.append(number).append(" mid = ").append(middle).append(";\nif (mid ").append(pick("<", "<=", ">")).append(number.equals("int") ? " (int) key" : " key")
            .append(") {\n").append(low).append(" = mid").append(pick("", " + 1", " + 1")).append(";\n} else {\n").append(high).append(" = mid")
            .append(pick("", "", " - 1")).append(";\n}\n").append(use("mid")).append("}\ns = s * 7 + ").append(low).append(";\n");
    }
}
