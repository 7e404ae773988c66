/* Each allocation fails in turn. It is linked with -Wl,--wrap=malloc,--wrap=realloc, so that all
 * that the library asks for comes here. The last line is 'ok'. */
#undef NDEBUG
#include "fdb_read_version.h"
#include <assert.h>
#include <stdio.h>
#include <stdlib.h>
#include <string.h>

#define ASKS 40
#define OFFERS 40

/* how many allocations succeed before one fails, or -1: all do */
static long left = -1;
static long refusals = 0;

void *__real_malloc(size_t size);
void *__real_realloc(void *at, size_t size);

static int refused(void) {
    if (left == 0) return 1;
    if (left > 0) left--;
    return 0;
}

void *__wrap_malloc(size_t size) { return refused() ? NULL : __real_malloc(size); }

void *__wrap_realloc(void *at, size_t size) { return refused() ? NULL : __real_realloc(at, size); }

/* A request that is refused for memory, made once more, is answered as if nothing had been. */
static uint8_t chain_bears(long allowed) {
    fdb_chain chain = FDB_CHAIN_NONE;
    fdb_answer answer = {.version = 17};
    left = allowed;
    uint8_t status = fdb_chain_new(100, 200, 64, &chain);
    if (status != FDB_OK) {
        assert(status == FDB_MEMORY && chain.at == NULL);
        return status;
    }
    uint8_t worst = FDB_OK;
    for (uint64_t i = 0; i < ASKS; i++) {
        fdb_ask ask = {.num = i + 1, .processed = 0, .at = 10 * i, .proxy = 1};
        uint64_t before = answer.version;
        status = fdb_chain_ask(&chain, &ask, &answer);
        if (status == FDB_MEMORY) {
            assert(answer.version == before);
            worst = status;
            left = -1;
            status = fdb_chain_ask(&chain, &ask, &answer);
        }
        assert(status == FDB_OK && answer.fresh && answer.ordinal == i);
        assert(answer.version == 200 + 10 * i);
    }
    left = -1;
    fdb_chain_free(&chain);
    return worst;
}

static uint8_t queue_bears(long allowed) {
    fdb_queue_config config = {.normal = 100000, .batch = 1, .room = OFFERS};
    fdb_queue queue = FDB_QUEUE_NONE;
    fdb_outcome outcome;
    fdb_request started[OFFERS];
    left = allowed;
    uint8_t status = fdb_queue_new(&config, &queue);
    if (status != FDB_OK) {
        assert(status == FDB_MEMORY && queue.at == NULL);
        return status;
    }
    uint8_t worst = FDB_OK;
    for (uint64_t i = 0; i < OFFERS; i++) {
        fdb_request request = {.count = 1, .payload = i, .priority = (uint8_t)(i % 2)};
        status = fdb_queue_offer(&queue, &request, &outcome);
        if (status == FDB_MEMORY) {
            worst = status;
            left = -1;
            status = fdb_queue_offer(&queue, &request, &outcome);
        }
        assert(status == FDB_OK && outcome.system_waits + outcome.default_waits == i + 1);
    }
    status = fdb_queue_window(&queue, 1000000, &outcome, started, OFFERS);
    if (status == FDB_MEMORY) {
        worst = status;
        left = -1;
        status = fdb_queue_window(&queue, 1000000, &outcome, started, OFFERS);
    }
    assert(status == FDB_OK && outcome.started == OFFERS);
    /* system requests first, whose payloads are even */
    for (uint64_t i = 0; i < OFFERS / 2; i++) {
        assert(started[i].payload == 2 * i);
        assert(started[OFFERS / 2 + i].payload == 2 * i + 1);
    }
    left = -1;
    fdb_queue_free(&queue);
    return worst;
}

static uint8_t rates_bear(long allowed) {
    fdb_queue_config config = {.normal = 20, .batch = 5, .room = OFFERS};
    fdb_queue queue = FDB_QUEUE_NONE;
    fdb_outcome outcome;
    fdb_turned_away gone[OFFERS] = {{.cause = 77}};
    uint64_t size = 77;
    assert(fdb_queue_new(&config, &queue) == FDB_OK);
    for (uint64_t i = 0; i < OFFERS; i++) {
        fdb_request request = {.count = i % 2 ? 30 : 1, .payload = i, .priority = FDB_BATCH};
        assert(fdb_queue_offer(&queue, &request, &outcome) == FDB_OK);
    }
    left = 0;
    /* where nobody is turned away it takes none */
    assert(fdb_queue_set_rates(&queue, 20, 7, gone, OFFERS, &size) == FDB_OK && size == 0);
    left = allowed;
    uint8_t status = fdb_queue_set_rates(&queue, 10, 7, gone, OFFERS, &size);
    left = -1;
    if (status == FDB_MEMORY) {
        assert(size == 0 && gone[0].cause == 77);
        assert(fdb_queue_set_rates(&queue, 10, 7, gone, OFFERS, &size) == FDB_OK);
    }
    assert(size == OFFERS / 2);
    for (uint64_t i = 0; i < size; i++) assert(gone[i].request.payload == 2 * i + 1);
    fdb_queue_free(&queue);
    return status;
}

static uint8_t arrays_bear(long allowed) {
    fdb_ask asks[ASKS];
    fdb_answer answers[ASKS];
    for (uint64_t i = 0; i < ASKS; i++)
        asks[i] = (fdb_ask){.num = i + 1, .processed = i, .at = i, .proxy = 0};
    left = allowed;
    uint8_t status = fdb_chain_answers(100, 200, 1, asks, ASKS, answers, ASKS);
    left = -1;
    assert(status == FDB_MEMORY || status == FDB_OK);
    assert(status == FDB_MEMORY || answers[ASKS - 1].version == 200 + ASKS - 1);
    return status;
}

/* A log with two stale reads, as bytes and as calls. */
static const char LOG[] = "{\"client\":\"a\",\"read\":2}\n{\"client\":\"a\",\"read\":1}\n"
                          "{\"client\":\"b\",\"learn\":\"a\"}\n{\"client\":\"b\",\"read\":1}";
#define BYTES (const uint8_t *)LOG, sizeof LOG - 1
static const fdb_call CALLS[] = {
    {.kind = FDB_READ, .version = 2, .client = 0, .has_client = true},
    {.kind = FDB_READ, .version = 1, .client = 0, .has_client = true},
    {.kind = FDB_LEARN, .teller = 0, .client = 1, .has_client = true},
    {.kind = FDB_READ, .version = 1, .client = 1, .has_client = true},
};
static const fdb_audit_options ALL = {.all = true};

/* Nothing is written where memory is refused; else both faults are found. */
static uint8_t borne(uint8_t status, uint64_t written, uint64_t size, uint64_t line) {
    left = -1;
    assert(line == 77);
    if (status == FDB_MEMORY) assert(written == 77 && size == 77);
    else assert(status == FDB_FAULT && written != 77 && size != 77);
    return status == FDB_FAULT ? FDB_OK : status;
}

/* Each audit of the log in turn: its text or its faults, of bytes or of calls. */
static uint8_t audit_bears(long allowed, bool of_calls, bool is_text) {
    uint8_t text[1000] = {77}, status;
    fdb_fault faults[4] = {{.known = 77}};
    uint64_t size = 77;
    fdb_refused refused = {.line = 77};
    left = allowed;
    if (of_calls && is_text)
        status = fdb_audit_calls_text(CALLS, 4, &ALL, text, sizeof text, &size, &refused);
    else if (of_calls)
        status = fdb_audit_calls_faults(CALLS, 4, &ALL, faults, 4, &size, &refused);
    else if (is_text)
        status = fdb_audit_log_text(BYTES, &ALL, text, sizeof text, &size, &refused);
    else
        status = fdb_audit_log_faults(BYTES, &ALL, faults, 4, &size, &refused);
    return borne(status, is_text ? text[0] : faults[0].known, size, refused.line);
}

static uint8_t log_text_bears(long allowed) { return audit_bears(allowed, false, true); }
static uint8_t log_faults_bear(long allowed) { return audit_bears(allowed, false, false); }
static uint8_t calls_text_bears(long allowed) { return audit_bears(allowed, true, true); }
static uint8_t calls_faults_bear(long allowed) { return audit_bears(allowed, true, false); }

#define NAME(text) (const uint8_t *)text, strlen(text)
#define KEYED "{\"client\":\"a\",\"commit\":2,\"began\":1,\"ended\":2,\"k\":\"x\"}\n" \
              "{\"client\":\"b\",\"read\":1,\"began\":3,\"ended\":4,\"k\":\"x\"}\n"
/* another client's end, by which a watch believes the last one */
#define VOUCHING "{\"client\":\"c\",\"read\":2,\"began\":4,\"ended\":4,\"k\":\"x\"}\n"

/* Memory that is refused ends an audit by pieces and a watch: they say so, and can be freed. */
static uint8_t audit_of(long allowed, fdb_audit_options options, const char *key, const char *shown,
                        const char *log, uint64_t faults) {
    fdb_audit audit = FDB_AUDIT_NONE;
    fdb_refused refused = {.line = 77};
    fdb_fault fault;
    uint64_t size = 77;
    left = allowed;
    uint8_t status = fdb_audit_new(&options, NAME(key), NAME(shown), &audit);
    if (status != FDB_OK) {
        assert(status == FDB_MEMORY && audit.at == NULL);
        return status;
    }
    status = fdb_audit_push(&audit, NAME(log), &refused);
    if (status == FDB_OK) status = fdb_audit_end(&audit, &refused);
    assert(status == FDB_MEMORY || status == FDB_FAULT);
    assert(fdb_audit_push(&audit, NAME(log), &refused) == FDB_OVER && refused.line == 77);
    assert(fdb_audit_end(&audit, &refused) == FDB_OVER);
    assert(fdb_audit_faults(&audit, &fault, 0, &size) == (status == FDB_FAULT ? FDB_ROOM : FDB_OK));
    assert(size == (status == FDB_FAULT ? faults : 0));
    left = -1;
    fdb_audit_free(&audit);
    return status == FDB_FAULT ? FDB_OK : status;
}

static uint8_t pieces_bear(long allowed) { return audit_of(allowed, ALL, "", "", LOG, 2); }

static uint8_t keys_bear(long allowed) {
    fdb_audit_options options = {.all = true, .totals = true, .json = true};
    return audit_of(allowed, options, "k", "x,y", KEYED, 1);
}

static uint8_t watch_bears(long allowed) {
    fdb_watch_options options = {.totals = true};
    fdb_watch watch = FDB_WATCH_NONE;
    fdb_refused refused = {.line = 77};
    uint8_t text;
    uint64_t size = 77;
    left = allowed;
    uint8_t status = fdb_watch_new(&options, NAME("k"), NAME("x,y"), &watch);
    if (status != FDB_OK) {
        assert(status == FDB_MEMORY && watch.at == NULL);
        return status;
    }
    status = fdb_watch_push(&watch, NAME(KEYED VOUCHING "{}\n"));
    if (status == FDB_OK) status = fdb_watch_tell(&watch, true);
    bool is_told = status == FDB_OK;
    if (is_told) status = fdb_watch_end(&watch, &refused);
    assert(status == FDB_MEMORY || status == FDB_FAULT);
    assert(fdb_watch_push(&watch, NAME("{")) == FDB_OVER);
    assert(fdb_watch_tell(&watch, true) == FDB_OVER);
    assert(fdb_watch_end(&watch, &refused) == FDB_OVER && refused.line == 77);
    /* what was said last is still there */
    assert(fdb_watch_text(&watch, &text, 0, &size) == (is_told ? FDB_ROOM : FDB_OK));
    assert(is_told == (size != 0));
    left = -1;
    fdb_watch_free(&watch);
    return status == FDB_FAULT ? FDB_OK : status;
}

/* Where the text of what is kept is not made, the watch is as it was; and none is opened by it. */
static uint8_t keeping_bears(long allowed) {
    fdb_watch_options options = {.behind = 9};
    fdb_watch watch = FDB_WATCH_NONE, next = FDB_WATCH_NONE;
    fdb_refused refused = {.line = 77};
    uint8_t text[1000] = {77};
    uint64_t size = 77;
    assert(fdb_watch_new(&options, NAME("k"), NAME("x,y"), &watch) == FDB_OK);
    assert(fdb_watch_push(&watch, NAME(KEYED)) == FDB_OK);
    left = allowed;
    uint8_t worst = fdb_watch_keep(&watch, text, 1, &size);
    assert(worst == FDB_MEMORY || worst == FDB_ROOM);
    assert(text[0] == 77 && (size == 77) == (worst == FDB_MEMORY));
    if (worst == FDB_ROOM) {
        /* it is held, and so it needs none */
        long before = left;
        left = 0;
        assert(fdb_watch_keep(&watch, text, sizeof text, &size) == FDB_OK);
        left = before;
        worst = fdb_watch_restore(&options, NAME("k"), NAME("x,y"), text, size, &next, &refused);
        assert(worst == FDB_OK || (worst == FDB_MEMORY && next.at == NULL));
        assert(refused.line == 77);
    }
    left = -1;
    assert(fdb_watch_keep(&watch, text, sizeof text, &size) == FDB_OK && size > 200);
    assert(fdb_watch_end(&watch, &refused) == FDB_FAULT);
    fdb_watch_free(&watch);
    fdb_watch_free(&next);
    return worst;
}

static void sweep(uint8_t (*bears)(long allowed)) {
    for (long allowed = 0; bears(allowed) != FDB_OK; allowed++) {
        assert(allowed < 10000);
        refusals++;
    }
}

int main(void) {
    sweep(chain_bears);
    sweep(queue_bears);
    sweep(rates_bear);
    sweep(arrays_bear);
    sweep(log_text_bears);
    sweep(log_faults_bear);
    sweep(calls_text_bears);
    sweep(calls_faults_bear);
    sweep(pieces_bear);
    sweep(keys_bear);
    sweep(watch_bears);
    sweep(keeping_bears);
    assert(refusals > 10);
    puts("ok");
    return 0;
}
