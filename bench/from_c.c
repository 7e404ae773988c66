/* What calls from C cost, in nanoseconds of processor time: the least of some runs; and what a chain
 * takes whose proxies process all, as it goes on: kilobytes, and the processor time of the longest single ask.
 *     cc -O2 -Iinclude bench/from_c.c crates/fdb_c/out/libfdb_read_version.a crates/fdb_c/out/liblibc_c.a */
#define _POSIX_C_SOURCE 200809L
#include "fdb_read_version.h"
#include <inttypes.h>
#include <stdio.h>
#include <stdlib.h>
#include <string.h>
#include <sys/resource.h>
#include <time.h>

#define COUNT 1000000
#define RUNS 9
#define ROOM 200
#define TIMED 10000000
#define ALL 100000000

static uint64_t sink;
static fdb_ask asks[COUNT];
static fdb_answer answers[COUNT];
static fdb_op ops[COUNT];
static fdb_outcome outcomes[COUNT];
static fdb_request started[COUNT];
static fdb_call calls[COUNT];
static char text[COUNT * 80];
static size_t length;
static const fdb_queue_config config = {.normal = 1000, .batch = 500, .room = ROOM};
static const fdb_audit_options options = {.margin = 0};
static fdb_chain chain = FDB_CHAIN_NONE;
static fdb_queue queue = FDB_QUEUE_NONE;

static void chain_by_handle(const fdb_ask *asked, size_t step) {
    fdb_answer answer;
    for (size_t i = 0; i < COUNT; i++) {
        fdb_chain_ask(&chain, &asked[i * step], &answer);
        sink += answer.version;
    }
}

static void fresh_by_handle(void) { chain_by_handle(asks, 1); }

/* (the first ask is kept, since it has processed none) */
static void kept_by_handle(void) { chain_by_handle(asks, 0); }

static void fresh_by_array(void) {
    sink += fdb_chain_answers(100, 200, 4, asks, COUNT, answers, COUNT);
}

static void queue_by_handle(void) {
    fdb_outcome outcome;
    for (size_t i = 0; i < COUNT; i++) {
        if (ops[i].kind == FDB_OP_WINDOW) {
            sink += fdb_queue_window(&queue, ops[i].amount, &outcome, started, ROOM);
        } else {
            fdb_request request = {ops[i].amount, i, ops[i].priority};
            sink += fdb_queue_offer(&queue, &request, &outcome);
        }
    }
}

static void queue_by_array(void) {
    uint64_t size;
    sink += fdb_queue_outcomes(&config, ops, COUNT, outcomes, COUNT, started, COUNT, &size);
}

static void report(void) {
    fdb_record kept = {.version = 1}, reported = {.version = 1};
    for (size_t i = 0; i < COUNT; i++) {
        reported.version = i;
        fdb_record_after_report(&kept, &reported);
        sink += fdb_record_version_for(&kept, false);
    }
}

static void line_of_calls(void) {
    fdb_refused refused;
    fdb_fault fault;
    uint64_t size;
    if (fdb_audit_calls_faults(calls, COUNT, &options, &fault, 1, &size, &refused)) exit(1);
}

static void line_of_bytes(void) {
    fdb_refused refused;
    fdb_fault fault;
    uint64_t size;
    const uint8_t *bytes = (const uint8_t *)text;
    if (fdb_audit_log_faults(bytes, length, &options, &fault, 1, &size, &refused)) exit(1);
}

/* The log has no fault: commits, each read by another client before the next one. */
static void make_inputs(void) {
    memset(answers, 1, sizeof answers);
    memset(outcomes, 1, sizeof outcomes);
    memset(started, 1, sizeof started);
    for (uint64_t i = 0; i < COUNT; i++) {
        asks[i] = (fdb_ask){i / 4 + 1, i / 4, i, (uint32_t)(i % 4)};
        ops[i] = (fdb_op){1 + i % 12, i, FDB_OP_OFFER, (uint8_t)(i % 3)};
        if (i % 10 == 9) ops[i] = (fdb_op){1000 + i % 50000, 0, FDB_OP_WINDOW, 0};
        calls[i] = (fdb_call){.kind = i % 2 ? FDB_READ : FDB_COMMIT, .version = i / 2 + 1,
                              .began = 2 * i, .ended = 2 * i + 1, .client = (uint32_t)(i % 16),
                              .has_client = true, .has_times = true, .has_ended = true};
        length += (size_t)sprintf(text + length,
            "{\"client\":\"%" PRIu64 "\",\"%s\":%" PRIu64 ",\"began\":%" PRIu64 ",\"ended\":%" PRIu64 "}\n",
            i % 16, i % 2 ? "read" : "commit", i / 2 + 1, 2 * i, 2 * i + 1);
    }
}

static double now(void) {
    struct timespec it;
    clock_gettime(CLOCK_PROCESS_CPUTIME_ID, &it);
    return (double)it.tv_sec * 1e9 + (double)it.tv_nsec;
}

static void told(const char *what, void (*timed)(void)) {
    double least = 1e18;
    for (int run = 0; run < RUNS; run++) {
        sink += fdb_chain_new(100, 200, 4, &chain) + fdb_queue_new(&config, &queue);
        double begun = now();
        timed();
        double spent = (now() - begun) / COUNT;
        fdb_chain_free(&chain);
        fdb_queue_free(&queue);
        if (spent < least) least = spent;
    }
    printf("%-28s %6.1f\n", what, least);
}

static long kilobytes(void) {
    struct rusage it;
    getrusage(RUSAGE_SELF, &it);
    return it.ru_maxrss;
}

/* Asks of four proxies in turn, each of which has processed all its answers before. */
static void go_on(uint64_t from, uint64_t to, double *longest) {
    fdb_answer answer;
    for (uint64_t i = from; i < to; i++) {
        fdb_ask ask = {i / 4 + 1, i / 4, i, (uint32_t)(i % 4)};
        double begun = longest ? now() : 0;
        if (fdb_chain_ask(&chain, &ask, &answer) || answer.status || !answer.fresh) exit(1);
        double spent = longest ? now() - begun : 0;
        if (longest && spent > *longest) *longest = spent;
        sink += answer.version;
    }
}

static void told_of_months(void) {
    double longest = 0;
    sink += fdb_chain_new(100, 200, 4, &chain);
    go_on(0, 1000, NULL);
    long before = kilobytes();
    go_on(1000, TIMED, &longest);
    double begun = now();
    go_on(TIMED, ALL, NULL);
    double spent = (now() - begun) / (ALL - TIMED);
    printf("%-28s %6.1f\n%-28s %6.0f\n%-28s %6ld\n", "of 100,000,000 asks, each", spent,
           "the longest of 10,000,000", longest, "kilobytes more than at 1,000", kilobytes() - before);
    fdb_chain_free(&chain);
}

int main(void) {
    told_of_months();
    make_inputs();
    told("a fresh ask, by handle", fresh_by_handle);
    told("a kept ask, by handle", kept_by_handle);
    told("a fresh ask, by array", fresh_by_array);
    told("a queue operation, by handle", queue_by_handle);
    told("a queue operation, by array", queue_by_array);
    told("a report and a read", report);
    told("a line of an array", line_of_calls);
    told("a line of a text", line_of_bytes);
    return sink == 0;
}
