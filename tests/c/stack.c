/* Audits and watches of lines that are nested deep, by threads of as little stack as the header
 * says is enough. The last line is 'ok'. */
#undef NDEBUG
#include "fdb_read_version.h"
#include <assert.h>
#include <pthread.h>
#include <stdio.h>
#include <stdlib.h>
#include <string.h>

#define STACK (150 * 1024)
/* How deep a line may be nested below its own object, and how long such a one may be. */
#define DEPTH 126
#define MOST 4096

/* Audits and watches a line whose last member is nested so, DEPTH times, and keeps and restores it. */
static void *nested(void *given) {
    const char *const *brackets = given;
    char *line = calloc(1, MOST);
    assert(line);
    strcpy(line, "{\"client\":\"a\",\"read\":1,\"began\":1,\"ended\":2,\"x\":");
    for (int i = 0; i < DEPTH; i++) strcat(line, brackets[0]);
    strcat(line, "\"\\u00e9\"");
    for (int i = 0; i < DEPTH; i++) strcat(line, brackets[1]);
    strcat(line, "}\n");
    uint8_t *text = calloc(1, MOST);
    const uint8_t *bytes = (const uint8_t *)line;
    size_t length = strlen(line);
    uint64_t size;
    fdb_audit_options options = {0};
    fdb_refused refused;
    assert(text);
    assert(!fdb_audit_log_text(bytes, length, &options, text, MOST, &size, &refused));
    const uint8_t shown = 'x';
    fdb_watch_options watched = {0};
    fdb_watch watch = FDB_WATCH_NONE;
    assert(fdb_watch_new(&watched, &shown, 0, &shown, 1, &watch) == FDB_OK);
    assert(fdb_watch_push(&watch, bytes, length) == FDB_OK);
    assert(fdb_watch_keep(&watch, text, MOST, &size) == FDB_OK && size > 0);
    assert(fdb_watch_end(&watch, &refused) == FDB_OK);
    fdb_watch_free(&watch);
    assert(!fdb_watch_restore(&watched, &shown, 0, &shown, 1, text, size, &watch, &refused));
    assert(fdb_watch_end(&watch, &refused) == FDB_OK);
    fdb_watch_free(&watch);
    free(text);
    free(line);
    return NULL;
}

int main(void) {
    const char *const all[][2] = {
        {"[", "]"}, {"[1,", "]"}, {"{\"a\":", "}"}, {"{\"b\":1,\"a\":", "}"},
        {"{\"\\u0061\":", "}"},
    };
    for (size_t i = 0; i < sizeof all / sizeof *all; i++) {
        pthread_attr_t attributes;
        pthread_t thread;
        assert(pthread_attr_init(&attributes) == 0);
        assert(pthread_attr_setstacksize(&attributes, STACK) == 0);
        assert(pthread_create(&thread, &attributes, nested, (void *)all[i]) == 0);
        assert(pthread_join(thread, NULL) == 0);
    }
    puts("ok");
    return 0;
}
