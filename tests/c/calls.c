/* What handles and arrays answer, one against the other, on many random calls:
 *     ./calls [CALLS] [SEED]
 * Expected values that stand here were worked out by hand. The last line is 'ok'. */
#undef NDEBUG
#include "fdb_read_version.h"
#include <assert.h>
#include <stdio.h>
#include <stdlib.h>
#include <string.h>

#define PROXIES 3
#define ROOM 50

static uint64_t state;

/* (xorshift: the same numbers on each machine) */
static uint64_t drawn(uint64_t below) {
    state ^= state << 13;
    state ^= state >> 7;
    state ^= state << 17;
    return state % below;
}

static void *some(size_t count, size_t size) {
    void *at = calloc(count + 1, size);
    assert(at);
    return at;
}

static bool same_answer(const fdb_answer *a, const fdb_answer *b) {
    return a->ordinal == b->ordinal && a->num == b->num && a->processed == b->processed
        && a->prev == b->prev && a->version == b->version && a->at == b->at && a->proxy == b->proxy
        && a->status == b->status && a->fresh == b->fresh;
}

static bool same_request(const fdb_request *a, const fdb_request *b) {
    return a->count == b->count && a->payload == b->payload && a->priority == b->priority;
}

static bool same_outcome(const fdb_outcome *a, const fdb_outcome *b) {
    return a->normal == b->normal && a->batch == b->batch && a->system_waits == b->system_waits
        && a->default_waits == b->default_waits && a->batch_waits == b->batch_waits
        && a->started == b->started && same_request(&a->out, &b->out) && a->has_out == b->has_out
        && a->status == b->status;
}

static fdb_ask random_ask(uint64_t *latest, uint64_t moment) {
    uint32_t proxy = (uint32_t)drawn(PROXIES);
    uint64_t num = latest[proxy] + 1, kind = drawn(12);
    if (kind == 0) num += 1 + drawn(3);
    else if (kind < 4) num = drawn(num + 1);
    if (num == latest[proxy] + 1) latest[proxy]++;
    uint64_t processed = latest[proxy] > 4 ? latest[proxy] - 4 + drawn(4) : 0;
    if (drawn(40) == 0) proxy += PROXIES;
    return (fdb_ask){.num = num, .processed = processed, .at = moment, .proxy = proxy};
}

static void chains_agree(size_t calls) {
    fdb_ask *asks = some(calls, sizeof *asks);
    fdb_answer *all = some(calls, sizeof *all), one;
    uint64_t latest[PROXIES] = {0}, counts[FDB_ROOM] = {0}, moment = 0;
    for (size_t i = 0; i < calls; i++) {
        moment = drawn(20) ? moment + drawn(6000000) : moment / 2;
        asks[i] = random_ask(latest, moment);
    }
    all[calls].version = 17;
    assert(fdb_chain_answers(100, 200, PROXIES, asks, calls, all, calls + 1) == FDB_OK);
    assert(all[calls].version == 17);
    fdb_chain chain = FDB_CHAIN_NONE;
    assert(fdb_chain_new(100, 200, PROXIES, &chain) == FDB_OK && chain.at != NULL);
    for (size_t i = 0; i < calls; i++) {
        assert(fdb_chain_ask(&chain, &asks[i], &one) == one.status);
        assert(same_answer(&one, &all[i]));
        counts[one.status]++;
    }
    /* of a chain that is none nothing is freed */
    for (int again = 0; again < 2; again++) {
        fdb_chain_free(&chain);
        assert(chain.at == NULL);
    }
    if (calls >= 1000) {
        assert(counts[FDB_OK] && counts[FDB_UNKNOWN_PROXY]);
        assert(counts[FDB_EARLY] && counts[FDB_FORGOTTEN]);
    }
    free(asks);
    free(all);
}

static void chain_by_hand(void) {
    fdb_chain chain = FDB_CHAIN_NONE;
    fdb_answer answer;
    assert(fdb_chain_new(100, 100, 1, &chain) == FDB_BAD_EPOCH && chain.at == NULL);
    assert(fdb_chain_new(0, UINT64_C(1) << 63, 1, &chain) == FDB_BAD_EPOCH);
    assert(fdb_chain_new(100, 200, 0, &chain) == FDB_NO_PROXY);
    assert(fdb_chain_new(100, 200, 65, &chain) == FDB_NO_PROXY && chain.at == NULL);
    assert(fdb_chain_new(100, 200, 64, &chain) == FDB_OK);
    fdb_ask ask = {.num = 1, .processed = 0, .at = 50, .proxy = 63};
    assert(fdb_chain_ask(&chain, &ask, &answer) == FDB_OK);
    assert(answer.ordinal == 0 && answer.prev == 100 && answer.version == 200 && answer.fresh);
    /* again: the same, not fresh */
    assert(fdb_chain_ask(&chain, &ask, &answer) == FDB_OK);
    assert(answer.version == 200 && !answer.fresh);
    ask = (fdb_ask){.num = 2, .processed = 1, .at = 80, .proxy = 63};
    assert(fdb_chain_ask(&chain, &ask, &answer) == FDB_OK);
    assert(answer.prev == 200 && answer.version == 230 && answer.ordinal == 1);
    assert(answer.num == 2 && answer.processed == 1 && answer.at == 80 && answer.proxy == 63);
    ask.num = 1;
    /* the first is processed */
    assert(fdb_chain_ask(&chain, &ask, &answer) == FDB_FORGOTTEN && answer.version == 0);
    ask.num = 9;
    assert(fdb_chain_ask(&chain, &ask, &answer) == FDB_EARLY && answer.num == 3);
    ask.proxy = 64;
    assert(fdb_chain_ask(&chain, &ask, &answer) == FDB_UNKNOWN_PROXY && answer.num == 0);
    fdb_chain_free(&chain);
    /* the greatest version is the last */
    uint64_t greatest = (UINT64_C(1) << 63) - 1;
    assert(fdb_chain_new(0, greatest, 1, &chain) == FDB_OK);
    ask = (fdb_ask){.num = 1, .processed = 0, .at = 0, .proxy = 0};
    assert(fdb_chain_ask(&chain, &ask, &answer) == FDB_OK && answer.version == greatest);
    ask.num = 2;
    assert(fdb_chain_ask(&chain, &ask, &answer) == FDB_EXHAUSTED);
    assert(answer.status == FDB_EXHAUSTED);
    fdb_chain_free(&chain);
    /* of several refusals the first stands */
    assert(fdb_chain_answers(100, 100, 0, &ask, 1, &answer, 0) == FDB_ROOM);
    assert(fdb_chain_answers(100, 100, 0, &ask, 1, &answer, 1) == FDB_BAD_EPOCH);
    assert(fdb_chain_answers(100, 200, 1, &ask, 0, &answer, 0) == FDB_OK);
}

/* (many reports, against a model: tests/bindings.py) */
static void register_by_hand(void) {
    fdb_record kept = {.version = 100};
    fdb_record second = {.version = 200, .min_known = 150, .metadata = {1, 2, 3},
                         .has_metadata = true, .locked = true};
    fdb_record third = {.version = 150, .min_known = 180};
    fdb_record_after_report(&kept, &second);
    fdb_record_after_report(&kept, &third);
    assert(kept.version == 200 && kept.min_known == 180 && kept.locked && kept.has_metadata);
    assert(kept.metadata[2] == 3 && kept.metadata[9] == 0);
    assert(fdb_record_version_for(&kept, false) == 200);
    assert(fdb_record_version_for(&kept, true) == 180);
}

static fdb_op random_op(uint64_t number) {
    if (drawn(30) == 0) return (fdb_op){.kind = FDB_OP_POP};
    if (drawn(8) == 0) return (fdb_op){.kind = FDB_OP_WINDOW, .amount = drawn(12000000)};
    uint64_t count = drawn(10) ? 1 + drawn(30) : drawn(200002);
    uint8_t priority = (uint8_t)drawn(4);
    return (fdb_op){count, number, FDB_OP_OFFER, priority};
}

static uint8_t done(fdb_queue *queue, const fdb_op *op, fdb_outcome *outcome, fdb_request *started) {
    if (op->kind == FDB_OP_OFFER) {
        fdb_request request = {op->amount, op->payload, op->priority};
        return fdb_queue_offer(queue, &request, outcome);
    }
    if (op->kind == FDB_OP_WINDOW)
        return fdb_queue_window(queue, op->amount, outcome, started, ROOM);
    fdb_queue_pop(queue, outcome);
    return FDB_OK;
}

static void queues_agree(size_t calls) {
    fdb_queue_config config = {.normal = 100, .batch = 30, .room = ROOM};
    fdb_op *ops = some(calls, sizeof *ops);
    fdb_outcome *all = some(calls, sizeof *all), one;
    fdb_request *started = some(calls, sizeof *started), mine[ROOM];
    uint64_t size = 0, at = 0, counts[FDB_TAG_TOO_LONG + 1] = {0}, pushed = 0;
    for (size_t i = 0; i < calls; i++) ops[i] = random_op(i);
    assert(fdb_queue_outcomes(&config, ops, calls, all, calls, started, calls, &size) == FDB_OK);
    fdb_queue queue = FDB_QUEUE_NONE;
    assert(fdb_queue_new(&config, &queue) == FDB_OK && queue.at != NULL);
    for (size_t i = 0; i < calls; i++) {
        assert(done(&queue, &ops[i], &one, mine) == one.status);
        assert(same_outcome(&one, &all[i]));
        counts[one.status]++;
        pushed += one.has_out && ops[i].kind == FDB_OP_OFFER;
        for (uint64_t k = 0; ops[i].kind == FDB_OP_WINDOW && k < one.started; k++, at++)
            assert(same_request(&mine[k], &started[at]));
    }
    assert(at == size);
    fdb_queue_free(&queue);
    assert(queue.at == NULL);
    if (calls >= 1000) {
        assert(counts[FDB_OK] && counts[FDB_BAD_OP] && counts[FDB_BAD_CONFIG]);
        assert(counts[FDB_BAD_COUNT] && counts[FDB_FULL] && pushed && size > 1);
        uint64_t needed = 0;
        uint8_t status =
            fdb_queue_outcomes(&config, ops, calls, all, calls, started, size - 1, &needed);
        assert(status == FDB_ROOM);
        assert(needed == size);
    }
    free(ops);
    free(all);
    free(started);
}

static void queue_by_hand(void) {
    fdb_queue_config bad = {.normal = 0, .batch = 0, .room = 1};
    fdb_queue_config config = {.normal = 10, .batch = 0, .room = 2};
    fdb_queue queue = FDB_QUEUE_NONE;
    fdb_outcome outcome;
    fdb_request started[2];
    assert(fdb_queue_new(&bad, &queue) == FDB_BAD_CONFIG && queue.at == NULL);
    assert(fdb_queue_new(&config, &queue) == FDB_OK);
    fdb_request first = {.count = 5, .payload = 1, .priority = FDB_DEFAULT};
    fdb_request second = first, batch = first;
    second.payload = 2;
    batch.priority = FDB_BATCH;
    assert(fdb_queue_offer(&queue, &batch, &outcome) == FDB_BATCH_THROTTLED);
    assert(fdb_queue_offer(&queue, &first, &outcome) == FDB_OK && outcome.default_waits == 1);
    assert(fdb_queue_offer(&queue, &second, &outcome) == FDB_OK && outcome.default_waits == 2);
    assert(fdb_queue_offer(&queue, &first, &outcome) == FDB_FULL && outcome.status == FDB_FULL);
    /* a system request pushes the oldest out */
    fdb_request system = {.count = 1, .payload = 3, .priority = FDB_SYSTEM};
    assert(fdb_queue_offer(&queue, &system, &outcome) == FDB_OK);
    assert(outcome.has_out && outcome.out.payload == 1 && outcome.system_waits == 1);
    memset(started, 0xff, sizeof started);
    assert(fdb_queue_window(&queue, 0, &outcome, started, 1) == FDB_ROOM);
    assert(started[0].payload == UINT64_MAX);
    assert(fdb_queue_window(&queue, 0, &outcome, started, 2) == FDB_BAD_CONFIG);
    assert(fdb_queue_window(&queue, 1000, &outcome, started, 2) == FDB_OK);
    assert(outcome.started >= 1 && started[0].payload == 3);
    fdb_queue_pop(&queue, &outcome);
    fdb_queue_pop(&queue, &outcome);
    assert(outcome.status == FDB_OK && !outcome.has_out);
    fdb_queue_free(&queue);
    /* what is freed may be freed and opened again */
    fdb_queue_free(&queue);
    assert(fdb_queue_new(&config, &queue) == FDB_OK);
    fdb_queue_free(&queue);
    const fdb_op ops[] = {{.kind = FDB_OP_OFFER, .amount = 5, .payload = 7, .priority = FDB_SYSTEM},
                          {.kind = FDB_OP_WINDOW, .amount = 1000}};
    fdb_outcome all[2] = {{.started = 77}};
    uint64_t size = 77;
    assert(fdb_queue_outcomes(&bad, ops, 2, all, 1, started, 0, &size) == FDB_ROOM);
    assert(fdb_queue_outcomes(&bad, ops, 2, all, 2, started, 0, &size) == FDB_BAD_CONFIG);
    assert(size == 77 && all[0].started == 77);
    assert(fdb_queue_outcomes(&config, ops, 2, all, 2, started, 0, &size) == FDB_ROOM);
    assert(size == 1 && all[0].system_waits == 1 && all[1].started == 1);
}

static void waits_and_throttles_by_hand(void) {
    fdb_queue_config config = {.normal = 10, .batch = 0, .room = 2};
    fdb_queue queue = FDB_QUEUE_NONE;
    fdb_outcome outcome;
    fdb_request request = {.count = 30, .payload = 1, .priority = FDB_DEFAULT};
    uint64_t windows = 17;
    assert(fdb_queue_new(&config, &queue) == FDB_OK);
    assert(!fdb_queue_waits(&queue, 1000000, &windows) && windows == 17);
    assert(fdb_queue_offer(&queue, &request, &outcome) == FDB_OK);
    /* 20 transactions more than a window lets start; it grants 5 in each second */
    assert(fdb_queue_waits(&queue, 1000000, &windows) && windows == 4);
    assert(!fdb_queue_waits(&queue, 0, &windows));
    const uint8_t tag[17] = "a long tag of 17";
    fdb_limit limit = {.rate = 17};
    assert(fdb_queue_set_throttle(&queue, FDB_DEFAULT, tag, 16, 9, 50) == FDB_OK);
    assert(fdb_queue_set_throttle(&queue, FDB_DEFAULT, tag, 17, 9, 50) == FDB_TAG_TOO_LONG);
    assert(fdb_queue_set_throttle(&queue, 3, tag, 17, 9, 50) == FDB_BAD_OP);
    assert(fdb_queue_throttle(&queue, 3, tag, 16, 49, &limit) == FDB_BAD_OP && limit.rate == 17);
    assert(fdb_queue_throttle(&queue, FDB_DEFAULT, tag, 16, 49, &limit) == FDB_OK);
    assert(limit.holds && limit.rate == 9 && limit.expires == 50);
    assert(fdb_queue_throttle(&queue, FDB_DEFAULT, tag, 16, 50, &limit) == FDB_OK && !limit.holds);
    assert(fdb_queue_throttle(&queue, FDB_BATCH, tag, 16, 49, &limit) == FDB_OK && !limit.holds);
    assert(fdb_queue_throttle(&queue, FDB_DEFAULT, tag, 15, 49, &limit) == FDB_OK && !limit.rate);
    assert(fdb_queue_throttle(&queue, FDB_DEFAULT, tag, 17, 49, &limit) == FDB_OK && !limit.holds);
    fdb_queue_free(&queue);
}

static bool is_gone(const fdb_turned_away *gone, uint64_t payload, uint64_t count, uint8_t cause) {
    const fdb_request wanted = {.count = count, .payload = payload, .priority = FDB_BATCH};
    return same_request(&gone->request, &wanted) && gone->cause == cause;
}

/* A batch request has at most normal + 10 transactions: 30, then 25, then 20. */
static void rates_by_hand(void) {
    fdb_queue_config config = {.normal = 20, .batch = 5, .room = 10};
    fdb_queue queue = FDB_QUEUE_NONE;
    fdb_outcome outcome;
    const fdb_request given[] = {
        {30, 1, FDB_BATCH}, {5, 2, FDB_BATCH}, {25, 3, FDB_BATCH}, {30, 4, FDB_DEFAULT}};
    fdb_turned_away gone[3] = {{.cause = 77}, {.cause = 78}};
    uint64_t size = 17, windows = 0;
    assert(fdb_queue_new(&config, &queue) == FDB_OK);
    for (size_t i = 0; i < 4; i++) assert(fdb_queue_offer(&queue, &given[i], &outcome) == FDB_OK);
    assert(fdb_queue_set_rates(&queue, 0, 5, gone, 3, &size) == FDB_BAD_CONFIG);
    assert(fdb_queue_set_rates(&queue, 100001, 5, gone, 3, &size) == FDB_BAD_CONFIG);
    assert(fdb_queue_set_rates(&queue, 10, 100001, gone, 3, &size) == FDB_BAD_CONFIG && size == 17);
    assert(fdb_queue_set_rates(&queue, 10, 5, gone, 2, &size) == FDB_ROOM && size == 3);
    assert(fdb_queue_set_rates(&queue, 20, 1, gone, 3, &size) == FDB_OK && size == 0);
    assert(gone[0].cause == 77);
    assert(fdb_queue_set_rates(&queue, 15, 1, gone, 3, &size) == FDB_OK && size == 1);
    assert(is_gone(&gone[0], 1, 30, FDB_BAD_COUNT) && gone[1].cause == 78);
    assert(fdb_queue_set_rates(&queue, 10, 0, gone, 2, &size) == FDB_OK && size == 2);
    assert(is_gone(&gone[0], 2, 5, FDB_BATCH_THROTTLED) && is_gone(&gone[1], 3, 25, FDB_BAD_COUNT));
    /* the default request waits on: 20 more than a window lets start, and 5 in each second */
    assert(fdb_queue_waits(&queue, 1000000, &windows) && windows == 4);
    assert(fdb_queue_set_rates(&queue, 20, 0, gone, 0, &size) == FDB_OK && size == 0);
    assert(fdb_queue_waits(&queue, 1000000, &windows) && windows == 1);
    assert(fdb_queue_offer(&queue, &given[1], &outcome) == FDB_BATCH_THROTTLED);
    fdb_queue_pop(&queue, &outcome);
    assert(outcome.out.payload == 4 && outcome.default_waits == 0 && outcome.batch_waits == 0);
    fdb_queue_free(&queue);
}

static void forgotten_by_hand(void) {
    fdb_queue_config config = {.normal = 10, .batch = 0, .room = 2};
    fdb_queue queue = FDB_QUEUE_NONE;
    fdb_limit limit;
    const uint8_t early[] = {'a'}, late[] = {'b'};
    assert(fdb_queue_new(&config, &queue) == FDB_OK);
    assert(fdb_queue_set_throttle(&queue, FDB_BATCH, early, 1, 8, 50) == FDB_OK);
    assert(fdb_queue_set_throttle(&queue, FDB_BATCH, late, 1, 9, 51) == FDB_OK);
    fdb_queue_forget_throttles(&queue, 49);
    assert(fdb_queue_throttle(&queue, FDB_BATCH, early, 1, 49, &limit) == FDB_OK && limit.holds);
    fdb_queue_forget_throttles(&queue, 50);
    assert(fdb_queue_throttle(&queue, FDB_BATCH, early, 1, 49, &limit) == FDB_OK && !limit.holds);
    assert(fdb_queue_throttle(&queue, FDB_BATCH, late, 1, 50, &limit) == FDB_OK && limit.rate == 9);
    fdb_queue_free(&queue);
}

static void names_and_version(void) {
    assert(fdb_read_version_version() == FDB_READ_VERSION_VERSION);
    assert(!strcmp(fdb_status_name(FDB_OK), "OK") && !strcmp(fdb_status_name(FDB_OVER), "OVER"));
    assert(!strcmp(fdb_status_name(FDB_UNJUDGED), "UNJUDGED"));
    assert(!strcmp(fdb_status_name(FDB_NOT_KEPT), "NOT_KEPT"));
    assert(!strcmp(fdb_status_name(FDB_TAG_TOO_LONG), "TAG_TOO_LONG"));
    assert(fdb_status_name(9) == NULL && fdb_status_name(255) == NULL);
    assert(!strcmp(fdb_member_name(FDB_KEY), "key") && !strcmp(fdb_fault_name(5), "Stray"));
    assert(fdb_member_name(0) == NULL && fdb_member_name(10) == NULL);
    assert(fdb_fault_name(0) == NULL && fdb_fault_name(6) == NULL);
}

int main(int count, char **words) {
    size_t calls = count > 1 ? strtoull(words[1], NULL, 10) : 20000;
    state = count > 2 ? strtoull(words[2], NULL, 10) : 7;
    assert(state != 0);
    names_and_version();
    chain_by_hand();
    chains_agree(calls);
    register_by_hand();
    queue_by_hand();
    waits_and_throttles_by_hand();
    rates_by_hand();
    forgotten_by_hand();
    queues_agree(calls);
    puts("ok");
    return 0;
}
