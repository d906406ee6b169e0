/* Verifies a class file and runs it on one entry: `example examples/Add.class 7 41 1` for the key 7, the value 41 and the argument 1. */
#include <inttypes.h>
#include <stdio.h>
#include <stdlib.h>
#include <string.h>
#include "jentry.h"

/* Returns a Boolean for `true` and `false`, else a Long. */
static struct jentry_arg arg_of(const char *word) {
    bool is_true = strcmp(word, "true") == 0;
    if (is_true || strcmp(word, "false") == 0) return (struct jentry_arg){ .kind = JENTRY_BOOLEAN, .value = is_true };
    return (struct jentry_arg){ .kind = JENTRY_LONG, .value = strtoll(word, NULL, 10) };
}

/* Prints the exception of a run of a class, with as much of its text as fits, if the processor gave it one. */
static void print_exception(struct jentry_handle *engine, uint32_t number, const struct jentry_done *done) {
    char text[256];
    size_t length = jentry_text(engine, number, (uint32_t)done->text, (uint8_t *)text, sizeof text);
    printf("threw %s", jentry_exception_name(done->value));
    if (length > 0) printf(": %.*s", (int)(length < sizeof text ? length : sizeof text), text);
}

int main(int argc, char **argv) {
    static uint8_t bytes[65537];
    FILE *file = argc > 3 && argc < 13 ? fopen(argv[1], "rb") : NULL;
    if (!file) {
        fprintf(stderr, "usage: example FILE KEY VALUE [ARG ..], with eight arguments at most\n");
        return 1;
    }
    size_t length = fread(bytes, 1, sizeof bytes, file);
    fclose(file);

    struct jentry_handle engine = {0};
    struct jentry_verdict verdict;
    if (jentry_open(&engine) != 0) return 3;
    jentry_define(&engine, bytes, length, &verdict);
    if (verdict.refusal != 0) {
        printf("refused %" PRIu32 " %s\n", verdict.refusal, jentry_refusal_name(verdict.refusal));
        jentry_close(&engine);
        return 2;
    }
    struct jentry_arg args[8] = {0};
    size_t count = (size_t)argc - 4;
    for (size_t i = 0; i < count; i++) args[i] = arg_of(argv[4 + i]);
    struct jentry_call call = { .number = verdict.number, .present = 1, .key = strtoll(argv[2], NULL, 10), .before = strtoll(argv[3], NULL, 10) };
    struct jentry_done done;
    jentry_invoke(&engine, &call, args, count, &done);
    if (done.outcome == JENTRY_THREW) print_exception(&engine, verdict.number, &done);
    else if (done.outcome == JENTRY_BOOLEAN) printf("returned %s", done.value ? "true" : "false");
    else printf("returned %" PRId64, done.value);
    printf(" in %" PRIu32 " of at most %" PRIu32 " instructions\n", done.steps, verdict.steps);
    if (done.effect == JENTRY_DELETE) puts("removed");
    else if (done.effect == JENTRY_PUT) printf("set to %" PRId64 "\n", done.put);
    jentry_close(&engine);
    return 0;
}
