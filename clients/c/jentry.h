/* jentry.h: verified entry processors inside a program, without a server.
 *
 * An engine holds the accepted classes and the buffers that a run needs. The caller refers to it by a handle.
 *
 *   struct jentry_handle handle = {0};
 *   jentry_open(&handle);                                   creates an engine without classes
 *   jentry_define(&handle, bytes, length, &verdict);        verifies a class file; verdict.number identifies the class from then on
 *   jentry_invoke(&handle, &call, args, count, &done);      runs the class on an entry; done says how to change the entry
 *   jentry_close(&handle);
 *
 * The caller stores the entries. It passes an entry as it is before a run, and gets the change that the processor makes.
 *
 * A caller has to follow these rules. The proofs assume them, and no function checks them:
 *   - A handle stays on the thread that opened it, with one call at a time. Different handles are independent.
 *   - All bytes of a handle are zero before its first jentry_open. From then on only these functions write them: `open` is 0 or 1, the
 *     bytes are as the last call left them, and no copy of a handle is used.
 *   - A pointer isn't null even if the length is 0, is aligned for its type, and refers to as many elements as its length says.
 *   - What a function writes doesn't overlap what it reads.
 *   - No function is called by a signal handler, or in the forked child of a process that has threads.
 *   - rattle_alloc, rattle_realloc and rattle_dealloc, which the core calls, are of one allocator, and aligned as they are asked for.
 * A function writes all fields of its result struct, in every case. No function prints or starts a thread, or waits but for memory.
 */
#ifndef JENTRY_H
#define JENTRY_H

#include <stdbool.h>
#include <stddef.h>
#include <stdint.h>

#ifdef __cplusplus
extern "C" {
#endif

/* The caller's reference to an engine. After jentry_close `open` is 0; the other bytes may be any, and jentry_open opens it again. */
struct jentry_handle {
    void *at;
    bool open;
    uint8_t unused[7];
};

/* The result of jentry_define. If `refusal` is 0, the class is accepted: `number` identifies it, and `steps`, `words`, `slots` and
 * `depth` limit its runs, as numbers of instructions, of array words, of slots for locals and operands, and of nested calls.
 * Otherwise `refusal` is the reason, which jentry_refusal_name names, `detail` is the opcode for refusal 17 and the index in the code
 * for refusal 22, and the number and the limits are 0. `id` is always the SHA-1 of the class file. */
struct jentry_verdict {
    uint32_t refusal, detail, number, steps, words, slots, depth;
    uint8_t id[20];
};

/* The kinds of an argument, and the outcomes of a run that returned. A Boolean has the value 0 or 1. */
enum { JENTRY_NULL = 0, JENTRY_LONG = 1, JENTRY_INTEGER = 2, JENTRY_BOOLEAN = 7 };

/* An argument of a run. An Integer outside of 32 bits, a Boolean other than 0 and 1, and any other kind are denied with
 * JENTRY_NO_ARGUMENT. */
struct jentry_arg {
    uint32_t kind, unused;
    int64_t value;
};

/* A call of the class `number` on the entry of `key`. `present` is 1 if the entry exists and has the value `before`, else 0. */
struct jentry_call {
    uint32_t number, present;
    int64_t key, before;
};

/* The other outcomes of a call. For 4 to 6 nothing was run, and all fields after `outcome` are 0. The class was run for 0 to 3 and for 7:
 * `outcome <= JENTRY_THREW` leaves out the runs that returned a Boolean. */
enum {
    JENTRY_THREW = 3,          /* `value` is the number of the exception, 1 to 5 or 7 to 10; the effect is JENTRY_KEEP */
    JENTRY_NO_CLASS = 4,       /* no class has the number, or the handle isn't open */
    JENTRY_MANY_ARGUMENTS = 5, /* more than eight arguments */
    JENTRY_NO_ARGUMENT = 6     /* an argument is invalid */
};

/* How to change the entry: not at all, set it to `put`, or remove it. The effect is JENTRY_KEEP whenever the entry stays as it was,
 * also if the processor set the value that the entry already had. */
enum { JENTRY_KEEP = 0, JENTRY_PUT = 1, JENTRY_DELETE = 2 };

/* What the processor did to the entry. JENTRY_UNTOUCHED: it called neither setValue nor remove, or it threw. JENTRY_SET: it called
 * them, and left a value. JENTRY_REMOVED: it called them, and left none. Unlike the effect, this distinguishes a setValue of the same
 * value from no call. */
enum { JENTRY_UNTOUCHED = 0, JENTRY_SET = 1, JENTRY_REMOVED = 2 };

/* The result of a call: the kind of the returned value in `outcome` and its number in `value`, or the exception; the effect on the entry;
 * the instructions and array words that the run took; and in `left` what the processor did to the entry. `text` is 0 unless the processor
 * threw the exception itself; then it is the index of the exception's text, for jentry_text, or -1 if the exception has none. */
struct jentry_done {
    uint32_t outcome, effect;
    int64_t value, put;
    uint32_t steps, words;
    uint32_t left;
    int32_t text;
};

/* Creates an engine. Returns 0, or 1 if memory is exhausted, or 2 if the handle is open already, which changes nothing. */
uint32_t jentry_open(struct jentry_handle *handle);

/* Frees the engine of a handle, if there is one. */
void jentry_close(struct jentry_handle *handle);

/* Verifies the bytes of a class file, keeps the class if it is accepted, and writes the result to `verdict`. Refusal 30, NoMemory, is
 * also the result for a handle that isn't open. A refusal changes nothing. Equal bytes get a new number each time. */
void jentry_define(struct jentry_handle *handle, const uint8_t *bytes, size_t length, struct jentry_verdict *verdict);

/* Removes the class with this number. Returns 1, or 0 if there is none. The number isn't used again until the handle is closed; an
 * engine that is opened later counts from 0. */
uint32_t jentry_forget(struct jentry_handle *handle, uint32_t number);

/* Runs a class on an entry, with up to eight arguments, and writes the result to `done`. */
void jentry_invoke(struct jentry_handle *handle, const struct jentry_call *call, const struct jentry_arg *args, size_t count,
                   struct jentry_done *done);

/* Writes the text of an exception to `text`, at most `room` bytes of it and without a terminating zero. `number` is the class that threw,
 * and `index` the field `text` of the result. The bytes are those of the String constant at that index of the class file, in modified
 * UTF-8 (JVMS 4.4.7): ASCII characters but zero are themselves. Returns the length of the whole text in bytes, or 0 if no class has the
 * number, if the class has no String at the index, as for 0 and -1, or if the text is empty. */
size_t jentry_text(struct jentry_handle *handle, uint32_t number, uint32_t index, uint8_t *text, size_t room);

/* Writes the output of `jentry explain` for a class file to `text`, at most `room` bytes of it and without a terminating zero.
 * Returns the length of the whole output, or 0 if memory is exhausted. */
size_t jentry_explain(const uint8_t *bytes, size_t length, uint8_t *text, size_t room);

/* Returns the name of a refusal, such as BackwardBranch, or of an exception, such as ClassCastException; an empty string for any
 * other number. These two functions are in libjentry, not in the core. */
const char *jentry_refusal_name(uint32_t refusal);
const char *jentry_exception_name(int64_t exception);

/* The layouts that the core expects. */
#ifdef __cplusplus
#define JENTRY_ASSERT static_assert
#else
#define JENTRY_ASSERT _Static_assert
#endif
JENTRY_ASSERT(sizeof(struct jentry_handle) == 16 && offsetof(struct jentry_handle, open) == 8, "the layout of a handle");
JENTRY_ASSERT(sizeof(struct jentry_verdict) == 48 && offsetof(struct jentry_verdict, id) == 28, "the layout of a verdict");
JENTRY_ASSERT(sizeof(struct jentry_arg) == 16 && offsetof(struct jentry_arg, value) == 8, "the layout of an argument");
JENTRY_ASSERT(sizeof(struct jentry_call) == 24 && offsetof(struct jentry_call, key) == 8, "the layout of a call");
JENTRY_ASSERT(sizeof(struct jentry_done) == 40 && offsetof(struct jentry_done, text) == 36, "the layout of an end");
#undef JENTRY_ASSERT

#ifdef __cplusplus
}
#endif
#endif
