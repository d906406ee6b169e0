package jentry.compiler.unroll;

import java.util.BitSet;

/**
 * A natural loop: the instructions that lead back to its head without leaving what the head dominates.
 *
 * @param head the first instruction of each iteration
 * @param body the instructions of an iteration
 * @param latches the instructions that lead back to the head
 */
record Loop(int head, BitSet body, BitSet latches) { }
