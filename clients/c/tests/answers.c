/* The core through its C interface, for tests: prints what `jentry` prints, and tests the limits of the interface.
 *
 *   answers check FILE | explain FILE | run FILE KEY VALUE [ARG ..]     prints what the program prints, with its status
 *   answers calls                                                       runs each line `FILE KEY VALUE [ARG ..]` of the input
 *   answers edges ADD PLUS RESERVE                                      tests denied calls, handles that aren't open, and removed classes
 *   answers threads FILE                                                tests four handles at once, each on a thread of its own
 *   answers thrown FILE                                                 runs a class that throws an exception itself, and prints that exception
 *   answers texts ADD FIRST SECOND SILENT                               tests the texts of classes that throw: two have one, the third has none
 */
#define _POSIX_C_SOURCE 200809L
#include <errno.h>
#include <inttypes.h>
#include <pthread.h>
#include <stdio.h>
#include <stdlib.h>
#include <string.h>
#include "../jentry.h"

enum { OK = 0, USAGE = 1, REFUSED = 2, OTHER = 3, THREW = 4 };
enum { MOST_BYTES = 65537, MOST_WORDS = 16, MOST_FILES = 256 };

/* Reads a class file, up to one byte more than a class may have. The block has exactly the length of the file, so that the sanitizer
 * reports a read past its end. */
static uint8_t *read_file(const char *name, size_t *length) {
    static uint8_t bytes[MOST_BYTES];
    FILE *file = fopen(name, "rb");
    if (!file) {
        fprintf(stderr, "cannot read %s\n", name);
        exit(OTHER);
    }
    *length = fread(bytes, 1, sizeof bytes, file);
    fclose(file);
    uint8_t *kept = malloc(*length ? *length : 1);
    if (!kept) exit(OTHER);
    memcpy(kept, bytes, *length);
    return kept;
}

static void print_refusal(const struct jentry_verdict *verdict) {
    printf("refused %" PRIu32 " %s", verdict->refusal, jentry_refusal_name(verdict->refusal));
    if (verdict->refusal == 17) printf(" opcode %" PRIu32, verdict->detail);
    if (verdict->refusal == 22) printf(" at %" PRIu32, verdict->detail);
    printf("\n");
}

static int check(const char *name) {
    struct jentry_handle engine = {0};
    struct jentry_verdict verdict;
    size_t length;
    uint8_t *bytes = read_file(name, &length);
    if (jentry_open(&engine) != 0) return OTHER;
    jentry_define(&engine, bytes, length, &verdict);
    jentry_close(&engine);
    free(bytes);
    if (verdict.refusal != 0) {
        print_refusal(&verdict);
        return REFUSED;
    }
    printf("accepted steps=%" PRIu32 " words=%" PRIu32 " slots=%" PRIu32 " depth=%" PRIu32 "\n", verdict.steps, verdict.words, verdict.slots,
           verdict.depth);
    return OK;
}

static int explain(const char *name) {
    size_t length;
    uint8_t *bytes = read_file(name, &length);
    uint8_t nothing;
    size_t count = jentry_explain(bytes, length, &nothing, 0);
    uint8_t *text = malloc(count + 8);
    if (!text || count == 0) return OTHER;
    memset(text, 'x', count + 8);
    /* A buffer that is too small gets the first `room` bytes, and nothing is written past it. */
    if (jentry_explain(bytes, length, text, count / 2) != count || text[count / 2] != 'x') return OTHER;
    if (jentry_explain(bytes, length, text, count + 8) != count || memcmp(text + count, "xxxxxxxx", 8) != 0) return OTHER;
    fwrite(text, 1, count, stdout);
    int status = memcmp(text, "accepted", 8) == 0 ? OK : REFUSED;
    free(bytes);
    free(text);
    return status;
}

/* Parses an argument: a Long, an Integer (with the suffix `i`), `true`, `false`, or `null`. */
static struct jentry_arg arg_of(const char *word) {
    if (strcmp(word, "null") == 0) return (struct jentry_arg){ .kind = JENTRY_NULL };
    if (strcmp(word, "false") == 0) return (struct jentry_arg){ .kind = JENTRY_BOOLEAN, .value = 0 };
    if (strcmp(word, "true") == 0) return (struct jentry_arg){ .kind = JENTRY_BOOLEAN, .value = 1 };
    char *end;
    errno = 0;
    int64_t value = strtoll(word, &end, 10);
    if (errno || end == word || (*end && strcmp(end, "i") != 0)) {
        fprintf(stderr, "bad argument %s\n", word);
        exit(USAGE);
    }
    return (struct jentry_arg){ .kind = *end ? JENTRY_INTEGER : JENTRY_LONG, .value = value };
}

static int print_run(const struct jentry_call *call, const struct jentry_done *done) {
    if (done->outcome == JENTRY_THREW) printf("threw %" PRId64 " %s\n", done->value, jentry_exception_name(done->value));
    else if (done->outcome == JENTRY_NULL) printf("result null\n");
    else if (done->outcome == JENTRY_BOOLEAN) printf("result %s\n", done->value == 1 ? "true" : done->value == 0 ? "false" : "bad");
    else printf("result %" PRId64 "%s\n", done->value, done->outcome == JENTRY_INTEGER ? "i" : "");
    bool exists = done->effect == JENTRY_PUT || (done->effect == JENTRY_KEEP && call->present);
    int64_t now = done->effect == JENTRY_PUT ? done->put : call->before;
    if (exists) printf("value %" PRId64 "\n", now);
    else printf("value none\n");
    printf("steps %" PRIu32 " words %" PRIu32 "\n", done->steps, done->words);
    return done->outcome == JENTRY_THREW ? THREW : OK;
}

/* Runs the class with this number for the words KEY VALUE [ARG ..]. The block of the arguments has exactly their length. */
static int run_words(struct jentry_handle *engine, uint32_t number, char **words, int count) {
    size_t args = (size_t)count - 2;
    struct jentry_arg *given = malloc((args ? args : 1) * sizeof *given);
    if (!given) exit(OTHER);
    for (size_t i = 0; i < args; i++) given[i] = arg_of(words[2 + i]);
    bool present = strcmp(words[1], "none") != 0;
    struct jentry_call call = { .number = number, .present = present, .key = arg_of(words[0]).value };
    if (present) call.before = arg_of(words[1]).value;
    struct jentry_done done;
    jentry_invoke(engine, &call, given, args, &done);
    free(given);
    return print_run(&call, &done);
}

static int run(char **words, int count) {
    struct jentry_handle engine = {0};
    struct jentry_verdict verdict;
    size_t length;
    uint8_t *bytes = read_file(words[0], &length);
    if (jentry_open(&engine) != 0) return OTHER;
    jentry_define(&engine, bytes, length, &verdict);
    free(bytes);
    int status = REFUSED;
    if (verdict.refusal != 0) print_refusal(&verdict);
    else status = run_words(&engine, verdict.number, words + 1, count - 1);
    jentry_close(&engine);
    return status;
}

/* Returns the number of the class in a file, which is defined at its first use. */
static uint32_t number_of(struct jentry_handle *engine, const char *name) {
    static struct { char name[256]; uint32_t number; } known[MOST_FILES];
    static size_t count;
    for (size_t i = 0; i < count; i++)
        if (strcmp(known[i].name, name) == 0) return known[i].number;
    struct jentry_verdict verdict;
    size_t length;
    uint8_t *bytes = read_file(name, &length);
    jentry_define(engine, bytes, length, &verdict);
    free(bytes);
    if (verdict.refusal != 0 || count == MOST_FILES || strlen(name) >= sizeof known[0].name) exit(REFUSED);
    strcpy(known[count].name, name);
    known[count].number = verdict.number;
    return known[count++].number;
}

static int calls(void) {
    struct jentry_handle engine = {0};
    char line[1024];
    if (jentry_open(&engine) != 0) return OTHER;
    while (fgets(line, sizeof line, stdin)) {
        char *words[MOST_WORDS];
        int count = 0;
        for (char *word = strtok(line, " \n"); word && count < MOST_WORDS; word = strtok(NULL, " \n")) words[count++] = word;
        if (count < 3) return USAGE;
        run_words(&engine, number_of(&engine, words[0]), words + 1, count - 1);
    }
    jentry_close(&engine);
    return OK;
}

static int failures;

#define HOLDS(what)                                                       \
    do {                                                                  \
        if (!(what)) failures++, printf("line %d: %s\n", __LINE__, #what); \
    } while (0)

/* Returns the result of a call on key 7 with the value 41. All bytes of the result are 0xff before the call, which shows a field that
 * isn't written. */
static struct jentry_done on_41(struct jentry_handle *engine, uint32_t number, const struct jentry_arg *args, size_t count) {
    struct jentry_call call = { .number = number, .present = 1, .key = 7, .before = 41 };
    struct jentry_done done;
    memset(&done, 0xff, sizeof done);
    jentry_invoke(engine, &call, args, count, &done);
    return done;
}

static bool is_denied(struct jentry_done done, uint32_t outcome) {
    return done.outcome == outcome && done.effect == 0 && done.value == 0 && done.put == 0 && done.steps == 0 && done.words == 0 &&
           done.left == JENTRY_UNTOUCHED && done.text == 0;
}

static void closed_handles(const uint8_t *bytes, size_t length) {
    struct jentry_handle engine = {0};
    struct jentry_verdict verdict;
    struct jentry_arg one = { .kind = JENTRY_LONG, .value = 1 };
    HOLDS(is_denied(on_41(&engine, 0, &one, 1), JENTRY_NO_CLASS));
    HOLDS(jentry_forget(&engine, 0) == 0);
    memset(&verdict, 0xff, sizeof verdict);
    jentry_define(&engine, bytes, length, &verdict);
    HOLDS(verdict.refusal == 30 && verdict.number == 0 && verdict.steps == 0);
    jentry_close(&engine);
    HOLDS(jentry_open(&engine) == 0);
    HOLDS(jentry_open(&engine) == 2);
    HOLDS(is_denied(on_41(&engine, 0, &one, 1), JENTRY_NO_CLASS));
    jentry_define(&engine, bytes, length, &verdict);
    HOLDS(verdict.refusal == 0);
    HOLDS(jentry_open(&engine) == 2);
    HOLDS(on_41(&engine, verdict.number, &one, 1).value == 42);
    jentry_close(&engine);
    jentry_close(&engine);
    HOLDS(engine.open == false);
    HOLDS(is_denied(on_41(&engine, verdict.number, &one, 1), JENTRY_NO_CLASS));
    HOLDS(jentry_open(&engine) == 0);
    HOLDS(is_denied(on_41(&engine, verdict.number, &one, 1), JENTRY_NO_CLASS));
    jentry_close(&engine);
}

static void arguments(struct jentry_handle *engine, uint32_t add) {
    struct jentry_arg nine[9];
    for (size_t i = 0; i < 9; i++) nine[i] = (struct jentry_arg){ .kind = JENTRY_LONG, .value = 1 };
    HOLDS(on_41(engine, add, nine, 8).value == 42);
    HOLDS(is_denied(on_41(engine, add, nine, 9), JENTRY_MANY_ARGUMENTS));
    for (uint32_t kind = 3; kind < 20; kind++) {
        struct jentry_arg odd = { .kind = kind, .value = 1 };
        HOLDS(kind == JENTRY_BOOLEAN || is_denied(on_41(engine, add, &odd, 1), JENTRY_NO_ARGUMENT));
    }
    for (int64_t value = INT64_C(1) << 31; value <= INT64_C(1) << 33; value *= 2) {
        struct jentry_arg large = { .kind = JENTRY_INTEGER, .value = value };
        HOLDS(is_denied(on_41(engine, add, &large, 1), JENTRY_NO_ARGUMENT));
        large.value = -value - 1;
        HOLDS(is_denied(on_41(engine, add, &large, 1), JENTRY_NO_ARGUMENT));
    }
    struct jentry_arg least = { .kind = JENTRY_INTEGER, .value = INT32_MIN };
    struct jentry_done done = on_41(engine, add, &least, 1);
    HOLDS(done.outcome == JENTRY_THREW && done.value == 4 && done.effect == JENTRY_KEEP);
    struct jentry_arg null = { .kind = JENTRY_NULL };
    done = on_41(engine, add, &null, 1);
    HOLDS(done.outcome == JENTRY_THREW && done.value == 3);
    done = on_41(engine, add, &null, 0);
    HOLDS(done.outcome == JENTRY_THREW && done.value == 2);
}

/* Tests a class that returns and takes Booleans. Its outcome is above those of calls that were denied, and yet it was run. */
static void booleans(struct jentry_handle *engine, uint32_t reserve) {
    struct jentry_arg args[2] = { { .kind = JENTRY_LONG, .value = 40 }, { .kind = JENTRY_BOOLEAN, .value = 1 } };
    struct jentry_done done = on_41(engine, reserve, args, 2);
    HOLDS(done.outcome == JENTRY_BOOLEAN && done.value == 1 && done.effect == JENTRY_KEEP && done.left == JENTRY_UNTOUCHED);
    HOLDS(done.steps == 48 && done.words == 0 && done.put == 0 && done.text == 0);
    args[1].value = 0;
    done = on_41(engine, reserve, args, 2);
    HOLDS(done.outcome == JENTRY_BOOLEAN && done.value == 1 && done.effect == JENTRY_PUT && done.put == 1 && done.left == JENTRY_SET);
    args[0].value = 42;
    done = on_41(engine, reserve, args, 2);
    HOLDS(done.outcome == JENTRY_BOOLEAN && done.value == 0 && done.effect == JENTRY_KEEP && done.steps == 44);
    const int64_t bad[] = { -1, 2, INT64_MAX, INT64_MIN, INT64_C(1) << 32 };
    for (size_t i = 0; i < sizeof bad / sizeof *bad; i++) {
        args[1].value = bad[i];
        HOLDS(is_denied(on_41(engine, reserve, args, 2), JENTRY_NO_ARGUMENT));
    }
    args[1] = (struct jentry_arg){ .kind = JENTRY_NULL };
    done = on_41(engine, reserve, args, 2);
    HOLDS(done.outcome == JENTRY_THREW && done.value == 3);
    args[1] = (struct jentry_arg){ .kind = JENTRY_LONG, .value = 1 };
    done = on_41(engine, reserve, args, 2);
    HOLDS(done.outcome == JENTRY_THREW && done.value == 4);
}

/* Tests how a run leaves the entry: after a put of another value, after a put of the same value, and after an exception. */
static void ends(struct jentry_handle *engine, uint32_t add, uint32_t plus) {
    struct jentry_arg one = { .kind = JENTRY_LONG, .value = 1 }, zero = { .kind = JENTRY_LONG };
    struct jentry_done done = on_41(engine, add, &one, 1);
    HOLDS(done.outcome == JENTRY_LONG && done.value == 42 && done.effect == JENTRY_PUT && done.put == 42);
    HOLDS(done.steps == 29 && done.words == 0 && done.left == JENTRY_SET && done.text == 0);
    done = on_41(engine, add, &zero, 1);
    HOLDS(done.outcome == JENTRY_LONG && done.value == 41 && done.effect == JENTRY_KEEP && done.left == JENTRY_SET);
    done = on_41(engine, add, &zero, 0);
    HOLDS(done.outcome == JENTRY_THREW && done.effect == JENTRY_KEEP && done.left == JENTRY_UNTOUCHED);
    done = on_41(engine, plus, &zero, 0);
    HOLDS(done.value == 42 && done.put == 42);
}

static void numbers(struct jentry_handle *engine, const uint8_t *bytes, size_t length) {
    struct jentry_arg one = { .kind = JENTRY_LONG, .value = 1 };
    struct jentry_verdict first, second, third, bad;
    jentry_define(engine, bytes, length, &first);
    jentry_define(engine, bytes, length, &second);
    HOLDS(first.refusal == 0 && second.refusal == 0 && first.number != second.number);
    HOLDS(memcmp(first.id, second.id, sizeof first.id) == 0);
    HOLDS(first.steps == 29 && first.words == 0 && first.slots == 17 && first.depth == 2);
    HOLDS(jentry_forget(engine, first.number) == 1);
    HOLDS(jentry_forget(engine, first.number) == 0);
    HOLDS(jentry_forget(engine, UINT32_MAX) == 0);
    HOLDS(is_denied(on_41(engine, first.number, &one, 1), JENTRY_NO_CLASS));
    HOLDS(is_denied(on_41(engine, UINT32_MAX, &one, 1), JENTRY_NO_CLASS));
    HOLDS(on_41(engine, second.number, &one, 1).value == 42);
    memset(&bad, 0xff, sizeof bad);
    jentry_define(engine, (const uint8_t *)"xyz", 3, &bad);
    HOLDS(bad.refusal == 2 && bad.number == 0 && bad.steps == 0 && bad.words == 0 && bad.slots == 0 && bad.depth == 0);
    HOLDS(memcmp(bad.id, "\x66\xb2\x74\x17\xd3\x7e\x02\x4c\x46\x52\x6c\x2f\x6d\x35\x8a\x75\x4f\xc5\x52\xf3", 20) == 0);
    jentry_define(engine, bytes, 0, &bad);
    HOLDS(bad.refusal == 2);
    HOLDS(memcmp(bad.id, "\xda\x39\xa3\xee\x5e\x6b\x4b\x0d\x32\x55\xbf\xef\x95\x60\x18\x90\xaf\xd8\x07\x09", 20) == 0);
    jentry_define(engine, bytes, length, &third);
    HOLDS(third.refusal == 0 && third.number != first.number && third.number != second.number);
    HOLDS(is_denied(on_41(engine, first.number, &one, 1), JENTRY_NO_CLASS));
    HOLDS(on_41(engine, third.number, &one, 1).value == 42);
}

static void two_engines(const uint8_t *bytes, size_t length) {
    struct jentry_handle one = {0}, other = {0};
    struct jentry_verdict verdict;
    struct jentry_arg arg = { .kind = JENTRY_LONG, .value = 1 };
    HOLDS(jentry_open(&one) == 0 && jentry_open(&other) == 0);
    jentry_define(&one, bytes, length, &verdict);
    HOLDS(on_41(&one, verdict.number, &arg, 1).value == 42);
    HOLDS(is_denied(on_41(&other, verdict.number, &arg, 1), JENTRY_NO_CLASS));
    jentry_close(&one);
    jentry_define(&other, bytes, length, &verdict);
    HOLDS(on_41(&other, verdict.number, &arg, 1).value == 42);
    jentry_close(&other);
}

/* Defines the class in a file, which has to be accepted, and returns its number. */
static uint32_t defined(struct jentry_handle *engine, const char *name) {
    struct jentry_verdict verdict;
    size_t length;
    uint8_t *bytes = read_file(name, &length);
    jentry_define(engine, bytes, length, &verdict);
    free(bytes);
    HOLDS(verdict.refusal == 0);
    return verdict.number;
}

enum { THREADS = 4, CALLS = 200 };

static struct { pthread_barrier_t are_open; const uint8_t *bytes; size_t length; } shared;

/* Opens a handle on this thread, waits until each thread has done so, and defines, runs and forgets a class that adds. Stores at `place`
 * how often that was right. */
static void *calls_on_a_thread(void *place) {
    struct jentry_handle engine = {0};
    struct jentry_verdict verdict;
    struct jentry_arg one = { .kind = JENTRY_LONG, .value = 1 };
    int right = 0;
    if (jentry_open(&engine) != 0) puts("not opened");
    pthread_barrier_wait(&shared.are_open);
    for (int i = 0; i < CALLS; i++) {
        jentry_define(&engine, shared.bytes, shared.length, &verdict);
        right += verdict.refusal == 0 && verdict.number == (uint32_t)i && on_41(&engine, verdict.number, &one, 1).value == 42 &&
                 jentry_forget(&engine, verdict.number) == 1;
    }
    jentry_close(&engine);
    *(int *)place = right;
    return NULL;
}

static int threads(const char *name) {
    pthread_t started[THREADS];
    int rights[THREADS], sum = 0;
    uint8_t *bytes = read_file(name, &shared.length);
    shared.bytes = bytes;
    pthread_barrier_init(&shared.are_open, NULL, THREADS);
    for (int i = 0; i < THREADS; i++)
        if (pthread_create(&started[i], NULL, calls_on_a_thread, &rights[i]) != 0) return OTHER;
    for (int i = 0; i < THREADS; i++) {
        pthread_join(started[i], NULL);
        sum += rights[i];
    }
    pthread_barrier_destroy(&shared.are_open);
    free(bytes);
    printf("%d right of %d\n", sum, THREADS * CALLS);
    return sum == THREADS * CALLS ? OK : OTHER;
}

enum { MOST_TEXT = 4096, ROOM = 16, MARK = 'x' };

/* Prints the number and the name of the exception that a class throws on the entry 41, and its text if it has one. */
static int thrown(const char *name) {
    struct jentry_handle engine = {0};
    uint8_t text[MOST_TEXT];
    if (jentry_open(&engine) != 0) return OTHER;
    uint32_t number = defined(&engine, name);
    struct jentry_done done = on_41(&engine, number, &(struct jentry_arg){0}, 0);
    size_t length = jentry_text(&engine, number, (uint32_t)done.text, text, sizeof text);
    jentry_close(&engine);
    HOLDS(done.outcome == JENTRY_THREW && done.effect == JENTRY_KEEP && done.put == 0 && done.left == JENTRY_UNTOUCHED);
    HOLDS(done.text != 0 && length <= sizeof text);
    if (failures) return OTHER;
    printf("%" PRId64 " %s", done.value, jentry_exception_name(done.value));
    if (done.text > 0) printf(" %.*s", (int)length, (const char *)text);
    printf("\n");
    return THREW;
}

/* Returns whether jentry_text returns this length, and writes the first `room` bytes of the text and nothing more. The block has exactly
 * `room` bytes for the sanitizer, but one if there is no room. */
static bool is_text(struct jentry_handle *engine, uint32_t number, uint32_t index, size_t room, const char *text) {
    size_t length = strlen(text), written = length < room ? length : room;
    uint8_t *block = malloc(room ? room : 1);
    if (!block) exit(OTHER);
    memset(block, MARK, room ? room : 1);
    bool is_same = jentry_text(engine, number, index, block, room) == length && memcmp(block, text, written) == 0;
    for (size_t i = written; i < (room ? room : 1); i++) is_same = is_same && block[i] == MARK;
    free(block);
    return is_same;
}

/* Tests the text of a class, for any size of the buffer and any index. Returns the index of the text. */
static uint32_t text_of(struct jentry_handle *engine, uint32_t number, const char *text) {
    struct jentry_done done = on_41(engine, number, &(struct jentry_arg){0}, 0);
    HOLDS(done.outcome == JENTRY_THREW && done.text > 0 && done.text <= UINT16_MAX);
    uint32_t at = (uint32_t)done.text;
    for (size_t room = 0; room <= strlen(text) + 2; room++) HOLDS(is_text(engine, number, at, room, text));
    /* The class has one String. An index is that of no String then, even if its low bits are those of one. */
    for (uint32_t index = 0; index <= 2 * UINT16_MAX; index++) HOLDS(index == at || is_text(engine, number, index, ROOM, ""));
    HOLDS(is_text(engine, number, UINT32_MAX, ROOM, ""));
    return at;
}

static int texts(char **names) {
    struct jentry_handle engine = {0}, other = {0};
    HOLDS(is_text(&engine, 0, 1, ROOM, ""));
    HOLDS(jentry_open(&engine) == 0 && jentry_open(&other) == 0);
    uint32_t add = defined(&engine, names[0]), first = defined(&engine, names[1]);
    uint32_t second = defined(&engine, names[2]), silent = defined(&engine, names[3]);
    uint32_t index = text_of(&engine, first, "sold out");
    text_of(&engine, second, "more than the stock has");
    HOLDS(on_41(&engine, silent, &(struct jentry_arg){0}, 0).text == -1);
    /* Add has no String, and its exceptions are those of the JVM. */
    struct jentry_done done = on_41(&engine, add, &(struct jentry_arg){0}, 0);
    HOLDS(done.outcome == JENTRY_THREW && done.value == 2 && done.text == 0);
    for (uint32_t at = 0; at <= UINT16_MAX; at++) HOLDS(is_text(&engine, add, at, ROOM, ""));
    HOLDS(is_text(&engine, UINT32_MAX, index, ROOM, "") && is_text(&engine, silent + 1, index, ROOM, ""));
    HOLDS(is_text(&other, first, index, ROOM, ""));
    HOLDS(jentry_forget(&engine, first) == 1);
    HOLDS(is_text(&engine, first, index, ROOM, ""));
    text_of(&engine, second, "more than the stock has");
    jentry_close(&engine);
    HOLDS(is_text(&engine, second, index, ROOM, ""));
    jentry_close(&other);
    printf("%d failures\n", failures);
    return failures ? OTHER : OK;
}

static int edges(const char *add_name, const char *plus_name, const char *reserve_name) {
    struct jentry_handle engine = {0};
    size_t length;
    uint8_t *bytes = read_file(add_name, &length);
    closed_handles(bytes, length);
    HOLDS(jentry_open(&engine) == 0);
    uint32_t add = defined(&engine, add_name);
    arguments(&engine, add);
    ends(&engine, add, defined(&engine, plus_name));
    booleans(&engine, defined(&engine, reserve_name));
    numbers(&engine, bytes, length);
    jentry_close(&engine);
    two_engines(bytes, length);
    HOLDS(strcmp(jentry_refusal_name(0), "") == 0 && strcmp(jentry_refusal_name(31), "") == 0);
    HOLDS(strcmp(jentry_refusal_name(1), "TooLarge") == 0 && strcmp(jentry_refusal_name(30), "NoMemory") == 0);
    HOLDS(strcmp(jentry_exception_name(0), "") == 0 && strcmp(jentry_exception_name(11), "") == 0 && strcmp(jentry_exception_name(-1), "") == 0);
    HOLDS(strcmp(jentry_exception_name(INT64_MIN), "") == 0 && strcmp(jentry_exception_name(INT64_C(1) + UINT32_MAX), "") == 0);
    HOLDS(strcmp(jentry_exception_name(1), "ArithmeticException") == 0);
    HOLDS(strcmp(jentry_exception_name(10), "UnsupportedOperationException") == 0);
    free(bytes);
    printf("%d failures\n", failures);
    return failures ? 1 : 0;
}

int main(int argc, char **argv) {
    if (argc == 3 && strcmp(argv[1], "check") == 0) return check(argv[2]);
    if (argc == 3 && strcmp(argv[1], "explain") == 0) return explain(argv[2]);
    if (argc >= 5 && strcmp(argv[1], "run") == 0) return run(argv + 2, argc - 2);
    if (argc == 2 && strcmp(argv[1], "calls") == 0) return calls();
    if (argc == 5 && strcmp(argv[1], "edges") == 0) return edges(argv[2], argv[3], argv[4]);
    if (argc == 3 && strcmp(argv[1], "threads") == 0) return threads(argv[2]);
    if (argc == 3 && strcmp(argv[1], "thrown") == 0) return thrown(argv[2]);
    if (argc == 6 && strcmp(argv[1], "texts") == 0) return texts(argv + 2);
    fprintf(stderr, "usage: answers check FILE | explain FILE | run FILE KEY VALUE [ARG ..] | calls | edges ADD PLUS RESERVE | threads FILE |"
                    " thrown FILE | texts ADD FIRST SECOND SILENT\n");
    return USAGE;
}
