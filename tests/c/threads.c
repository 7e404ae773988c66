/* Handles that are made by one thread, used by another, and freed by a third. The last line is 'ok'. */
#undef NDEBUG
#include "fdb_read_version.h"
#include <assert.h>
#include <pthread.h>
#include <stdio.h>

#define CALLS 1000

static const uint8_t NAME[1];
static const uint8_t LINE[] = "{\"client\":\"a\",\"read\":1,\"began\":1,\"ended\":2}\n";

typedef struct handles {
    fdb_chain chain;
    fdb_queue queue;
    fdb_audit audit;
    fdb_watch watch;
    uint8_t kept[1000];
} handles;

static void *made(void *given) {
    handles *both = given;
    fdb_queue_config config = {.normal = 100, .batch = 10, .room = CALLS};
    assert(fdb_chain_new(100, 200, 1, &both->chain) == FDB_OK);
    assert(fdb_queue_new(&config, &both->queue) == FDB_OK);
    fdb_audit_options options = {0};
    fdb_watch_options watched = {0};
    assert(fdb_audit_new(&options, NAME, 0, NAME, 0, &both->audit) == FDB_OK);
    assert(fdb_watch_new(&watched, NAME, 0, NAME, 0, &both->watch) == FDB_OK);
    return NULL;
}

static void *used(void *given) {
    handles *both = given;
    fdb_answer answer;
    fdb_outcome outcome;
    fdb_request started[CALLS];
    for (uint64_t i = 0; i < CALLS; i++) {
        fdb_ask ask = {.num = i + 1, .processed = i / 2, .at = i};
        fdb_request request = {.count = 1, .payload = i, .priority = FDB_SYSTEM};
        assert(fdb_chain_ask(&both->chain, &ask, &answer) == FDB_OK && answer.version == 200 + i);
        assert(fdb_queue_offer(&both->queue, &request, &outcome) == FDB_OK);
    }
    assert(fdb_queue_window(&both->queue, 1000, &outcome, started, CALLS) == FDB_OK);
    assert(outcome.started == CALLS && started[CALLS - 1].payload == CALLS - 1);
    fdb_refused refused;
    assert(fdb_audit_push(&both->audit, LINE, sizeof LINE - 1, &refused) == FDB_OK);
    assert(fdb_watch_push(&both->watch, LINE, sizeof LINE - 1) == FDB_OK);
    /* what is kept is held for the next thread */
    uint64_t size;
    assert(fdb_watch_keep(&both->watch, both->kept, 0, &size) == FDB_ROOM);
    return NULL;
}

static void *freed(void *given) {
    handles *both = given;
    fdb_refused refused;
    uint64_t size;
    assert(fdb_audit_end(&both->audit, &refused) == FDB_OK);
    assert(fdb_watch_keep(&both->watch, both->kept, sizeof both->kept, &size) == FDB_OK);
    assert(fdb_watch_end(&both->watch, &refused) == FDB_OK);
    fdb_audit_free(&both->audit);
    fdb_watch_free(&both->watch);
    fdb_chain_free(&both->chain);
    fdb_queue_free(&both->queue);
    assert(both->chain.at == NULL && both->queue.at == NULL);
    return NULL;
}

int main(void) {
    handles both = {FDB_CHAIN_NONE, FDB_QUEUE_NONE, FDB_AUDIT_NONE, FDB_WATCH_NONE, {0}};
    void *(*const turns[])(void *) = {made, used, freed};
    for (size_t i = 0; i < 3; i++) {
        pthread_t thread;
        assert(pthread_create(&thread, NULL, turns[i], &both) == 0);
        assert(pthread_join(thread, NULL) == 0);
    }
    puts("ok");
    return 0;
}
