/* A module of Redis that does what other modules may do: it changes a key while Redis tells it that the key was set.
 *
 * NEIGHBOUR.DO WHAT sets what it does from then on to a key whose name begins with `v:`: delete, overwrite, expire, rename, or nothing.
 * Debian has no redismodule.h, so the few functions are declared here.
 */
#include <string.h>

typedef struct Context Context;
typedef struct Text Text;
typedef struct Reply Reply;
typedef int Command(Context *, Text **, int);
typedef int Listener(Context *, int, const char *, Text *);

enum { OK, ERR, API_VERSION = 1, OF_STRINGS = 1 << 3 };

static void (*set_attributes)(Context *, const char *, int, int);
static int (*create_command)(Context *, const char *, Command *, const char *, int, int, int);
static int (*subscribe)(Context *, int, Listener *);
static Reply *(*call)(Context *, const char *, const char *, ...);
static void (*free_reply)(Reply *);
static const char *(*bytes_of)(const Text *, size_t *);
static int (*reply_simple)(Context *, const char *);

static char what[16] = "nothing";
static int is_busy;

static int at_event(Context *context, int type, const char *event, Text *key) {
    Reply *reply = NULL;
    (void)type;
    if (is_busy || strcmp(event, "set") != 0 || strncmp(bytes_of(key, NULL), "v:", 2) != 0) return OK;
    is_busy = 1;
    if (strcmp(what, "delete") == 0) reply = call(context, "DEL", "!s", key);
    if (strcmp(what, "overwrite") == 0) reply = call(context, "SET", "!sc", key, "777777");
    if (strcmp(what, "expire") == 0) reply = call(context, "PEXPIRE", "!sc", key, "0");
    if (strcmp(what, "rename") == 0) reply = call(context, "RENAME", "!sc", key, "renamed:1");
    if (reply) free_reply(reply);
    is_busy = 0;
    return OK;
}

static int set_what(Context *context, Text **words, int count) {
    if (count == 2) strncpy(what, bytes_of(words[1], NULL), sizeof what - 1);
    return reply_simple(context, what);
}

int RedisModule_OnLoad(Context *context, Text **words, int count) {
    int (*find)(const char *, void *) = *(int (**)(const char *, void *))context;
    (void)words;
    if (count || find("RedisModule_SetModuleAttribs", &set_attributes) || find("RedisModule_CreateCommand", &create_command) ||
        find("RedisModule_SubscribeToKeyspaceEvents", &subscribe) || find("RedisModule_Call", &call) ||
        find("RedisModule_FreeCallReply", &free_reply) || find("RedisModule_StringPtrLen", &bytes_of) ||
        find("RedisModule_ReplyWithSimpleString", &reply_simple))
        return ERR;
    set_attributes(context, "neighbour", 1, API_VERSION);
    return create_command(context, "neighbour.do", set_what, "", 0, 0, 0) || subscribe(context, OF_STRINGS, at_event);
}
