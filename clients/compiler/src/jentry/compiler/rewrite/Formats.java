package jentry.compiler.rewrite;

import java.util.List;
import java.util.Set;
import java.util.regex.Matcher;
import java.util.regex.Pattern;

/** Format strings of String.format that can be used without an exception, whatever the numbers are. */
final class Formats {
    private static final Pattern ITEM = Pattern.compile("%(?:[n%]|(?:-?[1-9]\\d?)?[sb]|(?:,|0[1-9]\\d?|-?[1-9]\\d?)?d|(?:0[1-9]\\d?|-?[1-9]\\d?)?x)");
    private static final Set<String> WHOLE_NUMBERS = Set.of("Ljava/lang/Long;", "Ljava/lang/Integer;", "Ljava/lang/Short;", "Ljava/lang/Byte;");

    private Formats() { }

    /** Returns what a format writes beside its values, and of them the constant parts; null if it may throw, or isn't understood. */
    static String constantParts(String format, List<TextValue> values) {
        StringBuilder text = new StringBuilder();
        Matcher item = ITEM.matcher(format);
        int value = 0;
        int at = 0;
        while (at < format.length()) {
            if (format.charAt(at) != '%') {
                text.append(format.charAt(at++));
                continue;
            } else if (!item.region(at, format.length()).lookingAt()) {
                return null;
            }
            char kind = format.charAt(item.end() - 1);
            at = item.end();
            if (kind == 'n' || kind == '%') {
                text.append(kind == 'n' ? '\n' : '%');
                continue;
            }
            boolean isTaken = value < values.size() && (kind == 's' || kind == 'b' || WHOLE_NUMBERS.contains(values.get(value).type()));
            if (!isTaken) {
                return null;
            }
            text.append(kind == 's' ? values.get(value).part() : "");
            value++;
        }
        return text.toString();
    }
}
