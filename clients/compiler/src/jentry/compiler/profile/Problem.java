package jentry.compiler.profile;

/**
 * The reason why a class can't be accepted.
 *
 * @param className the class name, with dots
 * @param method the method's name, or an empty string for the whole class
 * @param line the source line, or -1 if the class file has none
 * @param what the construct that isn't accepted
 * @param remedy what to write instead, or an empty string
 */
public record Problem(String className, String method, int line, String what, String remedy) {
    @Override
    public String toString() {
        StringBuilder text = new StringBuilder(className);
        if (!method.isEmpty()) {
            text.append('.').append(method);
        }
        if (line >= 0) {
            text.append(", line ").append(line);
        }
        text.append(": ").append(what);
        if (!remedy.isEmpty()) {
            text.append("; ").append(remedy);
        }
        return text.toString();
    }
}
