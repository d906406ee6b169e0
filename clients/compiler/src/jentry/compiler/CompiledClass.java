package jentry.compiler;

import java.util.List;
import jentry.compiler.link.Captures;
import jentry.compiler.profile.Bounds;

/**
 * A class that the verifier should accept.
 *
 * @param name the class name, with dots
 * @param source what the class was compiled from: the class name, and for a lambda also `#` and the name and descriptor of its body
 * @param bytes the class file
 * @param isUnchanged whether the bytes are those of the input
 * @param bounds the maximum cost of an invocation
 * @param stepsWithLoops the number of instructions on the longest path before loops were unrolled
 * @param notes the changes that were made, one per line
 * @param captures the values of the processor object that the caller has to pass, and those that the class was compiled for
 */
public record CompiledClass(String name, String source, byte[] bytes, boolean isUnchanged, Bounds bounds, long stepsWithLoops, List<String> notes,
    Captures captures) { }
