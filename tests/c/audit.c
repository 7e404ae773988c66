/* What audits answer, by bytes and by arrays, worked out by hand. The last line is 'ok'. Random logs
 * are audited by tests/audit_bindings.py. */
#undef NDEBUG
#include "fdb_read_version.h"
#include <assert.h>
#include <stdio.h>
#include <stdlib.h>
#include <string.h>

#define MOST 12
#define TIMES .has_times = true, .has_ended = true
#define CLIENT(number) .has_client = true, .client = number

static const fdb_audit_options PLAIN = {0};

/* Each array is as long as it is said to be, so that a sanitizer sees what goes beyond. */
static void *exact(const void *from, size_t size) {
    void *at = malloc(size ? size : 1);
    assert(at);
    if (size) memcpy(at, from, size);
    return at;
}

static uint8_t log_text(const char *log, const fdb_audit_options *options, char *text, size_t room,
                        uint64_t *size, fdb_refused *refused) {
    uint8_t *bytes = exact(log, strlen(log));
    uint8_t status = fdb_audit_log_text(bytes, strlen(log), options, (uint8_t *)text, room, size,
                                        refused);
    free(bytes);
    return status;
}

static uint8_t log_faults(const char *log, const fdb_audit_options *options, fdb_fault *faults,
                          size_t room, uint64_t *size) {
    fdb_refused refused = {0};
    uint8_t *bytes = exact(log, strlen(log));
    size_t length = strlen(log);
    uint8_t status = fdb_audit_log_faults(bytes, length, options, faults, room, size, &refused);
    free(bytes);
    return status;
}

static uint8_t calls_faults(const fdb_call *calls, size_t count, const fdb_audit_options *options,
                            fdb_fault *faults, size_t room, uint64_t *size) {
    fdb_refused refused = {0};
    fdb_call *copy = exact(calls, count * sizeof *calls);
    uint8_t status = fdb_audit_calls_faults(copy, count, options, faults, room, size, &refused);
    free(copy);
    return status;
}

static bool same_fault(const fdb_fault *a, const fdb_fault *b) {
    return a->known == b->known && a->place == b->place && a->other == b->other && a->by == b->by
        && a->learnt == b->learnt && a->kind == b->kind && a->reason == b->reason
        && a->means == b->means && a->late == b->late && a->first == b->first
        && a->has_late == b->has_late;
}

/* ---- worked out by hand */

static void a_stale_read(void) {
    const char *log = "{\"client\":\"a\",\"commit\":200,\"began\":10,\"ended\":14}\n"
                      "{\"client\":\"b\",\"read\":100,\"began\":15,\"ended\":16}\n";
    const char *said = "audit fault: Order 2: client \"b\" read 100, but 200 was known: line 1 "
                       "(client \"a\", commit 200) had ended 1 before line 2 began\n";
    char text[200];
    fdb_refused refused = {.line = 77, .member = 7};
    /* each room that is too small, and then one byte too many */
    for (size_t room = 0; room <= strlen(said) + 1; room++) {
        uint64_t size = 0;
        memset(text, '~', sizeof text);
        uint8_t status = log_text(log, &PLAIN, text, room, &size, &refused);
        assert(size == strlen(said));
        assert(status == (room < size ? FDB_ROOM : FDB_FAULT));
        assert(room < size || !memcmp(text, said, size));
        for (size_t at = room < size ? 0 : size; at < sizeof text; at++) assert(text[at] == '~');
    }
    assert(refused.line == 77 && refused.member == 7);
    fdb_fault fault, wanted = {.known = 200, .place = 1, .by = 0, .kind = FDB_FAULT_ORDER,
                               .reason = FDB_REASON_KNOWN, .means = FDB_MEANS_ENDED,
                               .late = 1, .first = 0, .has_late = true};
    uint64_t size = 0;
    assert(log_faults(log, &PLAIN, &fault, 0, &size) == FDB_ROOM && size == 1);
    assert(log_faults(log, &PLAIN, &fault, 1, &size) == FDB_FAULT && size == 1);
    assert(same_fault(&fault, &wanted));
    /* clocks that may be 1 apart explain it, and 200 is not known where it began */
    fdb_audit_options options = {.margin = 1};
    assert(log_faults(log, &options, &fault, 1, &size) == FDB_OK && size == 0);
}

static void each_reason(void) {
    fdb_call calls[] = {
        {.kind = FDB_ASK, .version = 7, CLIENT(5)},
        {.kind = FDB_LEARN, .teller = 5, CLIENT(6)},
        {.kind = FDB_ASK, .version = 7, CLIENT(6)},    /* NotAbove and Twice, of line 0 */
        {.kind = FDB_REPORT, .version = 8, CLIENT(6)}, /* Stray: nobody drew 8 */
        {.kind = FDB_READ, .version = 9, CLIENT(5)},   /* Wrong: nobody reported 9 */
        {.kind = FDB_READ, .version = 5, CLIENT(5)},   /* Order: it had read 9, line 4; Wrong too */
        {.kind = FDB_READ, .version = 1, CLIENT(7)},   /* Order: all began with 2; Wrong too */
        {.kind = FDB_REPORT, .version = 7, CLIENT(8)}, /* Stray: line 0 drew 7 */
        {.kind = FDB_COMMIT, .version = 6, CLIENT(5)}, /* NotAbove: it had read 9, line 4 */
        {.kind = FDB_READ, .version = 6, CLIENT(5)},   /* Order; Wrong: line 8 knew 9 by line 4 */
    };
    fdb_fault wanted[] = {
        {.place = 2, .kind = FDB_FAULT_NOT_ABOVE, .reason = FDB_REASON_KNOWN, .known = 7,
         .means = FDB_MEANS_LEARNT, .by = 0, .learnt = 1},
        {.place = 3, .kind = FDB_FAULT_STRAY, .reason = FDB_REASON_UNDRAWN},
        {.place = 4, .kind = FDB_FAULT_WRONG, .reason = FDB_REASON_UNREPORTED},
        {.place = 5, .kind = FDB_FAULT_ORDER, .reason = FDB_REASON_KNOWN, .known = 9,
         .means = FDB_MEANS_OWN, .by = 4},
        {.place = 6, .kind = FDB_FAULT_ORDER, .reason = FDB_REASON_KNOWN, .known = 2,
         .means = FDB_MEANS_START},
        {.place = 7, .kind = FDB_FAULT_STRAY, .reason = FDB_REASON_DRAWN, .other = 0},
        {.place = 8, .kind = FDB_FAULT_NOT_ABOVE, .reason = FDB_REASON_KNOWN, .known = 9,
         .means = FDB_MEANS_OWN, .by = 4},
        {.place = 9, .kind = FDB_FAULT_WRONG, .reason = FDB_REASON_REPORTED, .other = 8, .known = 9,
         .means = FDB_MEANS_OWN, .by = 4},
        {.place = 2, .kind = FDB_FAULT_TWICE, .reason = FDB_REASON_DRAWN, .other = 0},
        {.place = 0, .kind = FDB_FAULT_TWICE, .reason = FDB_REASON_DRAWN, .other = 2},
    };
    fdb_audit_options options = {.complete = true, .start = 2};
    fdb_fault faults[2 * MOST];
    uint64_t size;
    assert(calls_faults(calls, 10, &options, faults, 2 * MOST, &size) == FDB_FAULT);
    for (size_t i = 0; i < sizeof wanted / sizeof *wanted; i++) {
        bool is_there = false;
        for (size_t at = 0; at < size; at++)
            is_there = is_there || same_fault(&faults[at], &wanted[i]);
        assert(is_there);
    }
    /* besides these, lines 5 and 6 are Wrong and line 9 is Order */
    assert(size == sizeof wanted / sizeof *wanted + 3);
}

static void no_fault(void) {
    const char *log = "{\"client\":\"a\",\"commit\":1}\n{\"client\":\"a\",\"read\":1}";
    const char *said = "audit ok lines 2 timed 0 reads 1 commits 1 asks 0 reports 0 learns 0 unreported 0\n"
                       "history 0 ask 1 line 1 client \"a\"\n"
                       "history 1 report 1 line 1 client \"a\"\n"
                       "history 2 read 1 line 2 client \"a\"\n";
    char text[400] = "";
    uint64_t size;
    fdb_refused refused;
    fdb_audit_options options = {.history = true, .all = true};
    assert(log_text(log, &options, text, sizeof text, &size, &refused) == FDB_OK);
    assert(size == strlen(said) && !memcmp(text, said, size));
    fdb_call calls[1];
    fdb_fault fault;
    assert(fdb_audit_calls_faults(calls, 0, &PLAIN, &fault, 1, &size, &refused) == FDB_OK);
    assert(size == 0);
}

/* ---- refusals: the status, the line, the member, and nothing else written */

static void refused_log(const char *log, uint8_t wanted, uint64_t line, uint8_t member) {
    char text[1] = "~";
    uint64_t size = 77;
    fdb_refused refused = {77, 77};
    assert(log_text(log, &PLAIN, text, 1, &size, &refused) == wanted);
    assert(refused.line == line && refused.member == member && size == 77 && text[0] == '~');
}

static void refused_calls(fdb_call second, uint8_t wanted, uint8_t member) {
    fdb_call calls[] = {{.kind = FDB_READ, .version = 1, .began = 1, .ended = 2, TIMES}, second};
    if (!second.has_times && wanted != FDB_SOME_TIMES)
        calls[0] = (fdb_call){.kind = FDB_READ, .version = 1, CLIENT(1)};
    fdb_fault fault = {.known = 77};
    uint64_t size = 77;
    fdb_refused refused = {0};
    assert(fdb_audit_calls_faults(calls, 2, &PLAIN, &fault, 1, &size, &refused) == wanted);
    assert(refused.line == 2 && refused.member == member && size == 77 && fault.known == 77);
    refused = (fdb_refused){0};
    uint8_t text = '~';
    assert(fdb_audit_calls_text(calls, 2, &PLAIN, &text, 1, &size, &refused) == wanted);
    assert(refused.line == 2 && refused.member == member && size == 77 && text == '~');
}

static void refusals(void) {
    refused_log("{\"client\":\"a\",\"read\":1}\n{", FDB_NOT_JSON, 2, 0);
    refused_log("{\"client\":true,\"read\":1}", FDB_BAD_MEMBER, 1, FDB_CLIENT);
    refused_log("{\"client\":\"a\"}", FDB_NO_CALL, 1, 0);
    refused_log("", FDB_EMPTY, 0, 0);
    refused_log("\n", FDB_NOT_JSON, 1, 0);
    refused_log("{\"client\":\"a\",\"read\":1,\"ask\":1}", FDB_TWO_CALLS, 1, 0);
    refused_log("{\"client\":\"a\",\"learn\":\"b\"}", FDB_BAD_MEMBER, 1, FDB_LEARN);
    refused_log("{\"read\":1,\"ended\":1}", FDB_BAD_MEMBER, 1, FDB_BEGAN);
    refused_log("{\"read\":1}", FDB_BAD_MEMBER, 1, FDB_CLIENT);
    size_t long_line = 1048577;
    char *log = malloc(long_line + 1);
    assert(log);
    memset(log, ' ', long_line);
    log[long_line] = 0;
    refused_log(log, FDB_TOO_LONG, 1, 0);
    free(log);
    refused_calls((fdb_call){.kind = 0, CLIENT(1)}, FDB_NO_CALL, 0);
    refused_calls((fdb_call){.kind = FDB_CLIENT, CLIENT(1)}, FDB_NO_CALL, 0);
    refused_calls((fdb_call){.kind = FDB_BEGAN, CLIENT(1)}, FDB_NO_CALL, 0);
    refused_calls((fdb_call){.kind = 255, CLIENT(1)}, FDB_NO_CALL, 0);
    refused_calls((fdb_call){.kind = FDB_READ, .began = 2, .ended = 1, TIMES}, FDB_BAD_MEMBER,
                  FDB_ENDED);
    refused_calls((fdb_call){.kind = FDB_READ, CLIENT(1)}, FDB_SOME_TIMES, 0);
    refused_calls((fdb_call){.kind = FDB_LEARN, TIMES, CLIENT(1)}, FDB_BAD_MEMBER, FDB_LEARN);
    /* a client is known by a call above, and not by this one */
    refused_calls((fdb_call){.kind = FDB_LEARN, .teller = 2, CLIENT(2)}, FDB_BAD_MEMBER, FDB_LEARN);
    refused_calls((fdb_call){.kind = FDB_LEARN, .teller = 9, .began = 2, .ended = 1, TIMES},
                  FDB_BAD_MEMBER, FDB_LEARN);
    refused_calls((fdb_call){.kind = FDB_READ}, FDB_BAD_MEMBER, FDB_CLIENT);
}

/* ---- piece by piece: however it is cut, what is found of the whole, once */

static uint8_t pushed(fdb_audit *audit, const char *log, size_t cut, fdb_refused *refused) {
    uint8_t status = FDB_OK;
    for (size_t at = 0; at < strlen(log) && status == FDB_OK; at += cut) {
        size_t length = at + cut <= strlen(log) ? cut : strlen(log) - at;
        uint8_t *bytes = exact(log + at, length);
        status = fdb_audit_push(audit, bytes, length, refused);
        free(bytes);
    }
    return status;
}

static fdb_audit opened(const fdb_audit_options *options, const char *key, const char *shown) {
    fdb_audit audit = FDB_AUDIT_NONE;
    uint8_t *name = exact(key, strlen(key)), *names = exact(shown, strlen(shown));
    assert(fdb_audit_new(options, name, strlen(key), names, strlen(shown), &audit) == FDB_OK);
    free(name);
    free(names);
    return audit;
}

static void in_pieces(void) {
    const char *log = "{\"client\":\"a\",\"commit\":200,\"began\":10,\"ended\":14}\n"
                      "{\"client\":\"b\",\"read\":100,\"began\":15,\"ended\":16}";
    char whole[200], text[200];
    fdb_refused refused = {77, 77};
    uint64_t length, size;
    assert(log_text(log, &PLAIN, whole, sizeof whole, &length, &refused) == FDB_FAULT);
    fdb_fault fault, wanted = {.known = 200, .place = 1, .by = 0, .kind = FDB_FAULT_ORDER,
                               .reason = FDB_REASON_KNOWN, .means = FDB_MEANS_ENDED,
                               .late = 1, .first = 0, .has_late = true};
    for (size_t cut = 1; cut <= strlen(log); cut++) {
        fdb_audit audit = opened(&PLAIN, "", "");
        assert(pushed(&audit, log, cut, &refused) == FDB_OK);
        assert(fdb_audit_text(&audit, (uint8_t *)text, 0, &size) == FDB_OK && size == 0);
        assert(fdb_audit_end(&audit, &refused) == FDB_FAULT);
        for (int again = 0; again < 2; again++) {
            assert(fdb_audit_text(&audit, (uint8_t *)text, length - 1, &size) == FDB_ROOM);
            assert(size == length);
            assert(fdb_audit_text(&audit, (uint8_t *)text, sizeof text, &size) == FDB_OK);
            assert(size == length && !memcmp(text, whole, size));
            assert(fdb_audit_faults(&audit, &fault, 0, &size) == FDB_ROOM && size == 1);
            assert(fdb_audit_faults(&audit, &fault, 1, &size) == FDB_OK && size == 1);
            assert(same_fault(&fault, &wanted));
        }
        assert(fdb_audit_end(&audit, &refused) == FDB_OVER);
        assert(pushed(&audit, log, cut, &refused) == FDB_OVER && refused.line == 77);
        fdb_audit_free(&audit);
        assert(audit.at == NULL);
    }
    /* the margin is the one that was asked for, and a refusal comes with its line */
    fdb_audit_options options = {.margin = 1};
    fdb_audit audit = opened(&options, "", "");
    assert(pushed(&audit, log, 7, &refused) == FDB_OK);
    assert(fdb_audit_end(&audit, &refused) == FDB_OK);
    assert(fdb_audit_faults(&audit, &fault, 0, &size) == FDB_OK && size == 0);
    fdb_audit_free(&audit);
    audit = opened(&PLAIN, "", "");
    assert(pushed(&audit, "{\"client\":\"a\",\"read\":1}\n{}\n{", 3, &refused) == FDB_NO_CALL);
    assert(refused.line == 2 && refused.member == 0);
    assert(fdb_audit_end(&audit, &refused) == FDB_OVER);
    fdb_audit_free(&audit);
    audit = opened(&PLAIN, "", "");
    assert(fdb_audit_end(&audit, &refused) == FDB_EMPTY && refused.line == 0);
    fdb_audit_free(&audit);
    fdb_audit_free(&audit);
    assert(audit.at == NULL);
}

/* ---- by key, with what is shown, in each form */

#define COUNTS "\"Order\":1,\"Wrong\":0,\"NotAbove\":0,\"Twice\":0,\"Stray\":0}\n"
#define IN_WORDS "faults 1 Order 1 Wrong 0 NotAbove 0 Twice 0 Stray 0\n"
#define AT "{\"line\":3,\"client\":\"c\",\"read\":100,\"began\":16,\"ended\":17," \
           "\"members\":{\"k\":\"x\",\"note\":null,\"\xc3\xa9\":null}}"
#define BY "{\"line\":1,\"client\":\"a\",\"commit\":200,\"began\":10,\"ended\":14," \
           "\"members\":{\"k\":\"x\",\"note\":[1],\"\xc3\xa9\":null}}"
#define SAID_BY_KEY "audit fault: Order 3: client \"c\" read 100 \"k\":\"x\", but 200 was known: " \
                    "line 1 (client \"a\", commit 200 \"k\":\"x\" \"note\":[1]) had ended 2 " \
                    "before line 3 began\n"
#define TOTALS_BY_KEY "audit total lines 3 timed 3 reads 2 commits 1 asks 0 reports 0 learns 0 " \
                      "unreported 2 ordered 1\naudit total " IN_WORDS "audit total client \"c\" " \
                      IN_WORDS "audit total \"k\":\"x\" " IN_WORDS "audit total no \"note\" " \
                      IN_WORDS "audit total no \"\xc3\xa9\" " IN_WORDS
#define IN_JSON "{\"fault\":\"Order\",\"at\":" AT ",\"late\":2,\"first\":" BY "," \
                "\"reason\":\"known\",\"known\":200,\"by\":" BY ",\"means\":\"ended\"}\n"
#define TOTALS_IN_JSON "{\"total\":{\"lines\":3,\"timed\":3,\"reads\":2,\"commits\":1,\"asks\":0," \
                       "\"reports\":0,\"learns\":0,\"unreported\":2,\"ordered\":1},\"arguments\":" \
                       "{\"complete\":null,\"margin\":0,\"by_key\":true,\"members\":[\"k\"," \
                       "\"note\",\"\xc3\xa9\"]}}\n{\"faults\":1," COUNTS "{\"client\":\"c\"," \
                       "\"faults\":1," COUNTS "{\"members\":{\"k\":\"x\"},\"faults\":1," COUNTS \
                       "{\"members\":{\"note\":null},\"faults\":1," COUNTS \
                       "{\"members\":{\"\xc3\xa9\":null},\"faults\":1," COUNTS

static void by_key(void) {
    const char *log =
        "{\"client\":\"a\",\"commit\":200,\"began\":10,\"ended\":14,\"k\":\"x\",\"note\":[1]}\n"
        "{\"client\":\"b\",\"read\":100,\"began\":15,\"ended\":16,\"k\":\"y\",\"note\":2}\n"
        "{\"client\":\"c\",\"read\":100,\"began\":16,\"ended\":17,\"k\":\"x\"}\n";
    const struct {
        fdb_audit_options options;
        const char *said;
    } cases[] = {
        {{0}, SAID_BY_KEY},
        {{.all = true}, SAID_BY_KEY},
        {{.totals = true}, TOTALS_BY_KEY},
        {{.all = true, .totals = true}, SAID_BY_KEY TOTALS_BY_KEY},
        {{.json = true}, IN_JSON},
        {{.json = true, .totals = true, .history = true}, TOTALS_IN_JSON},
        {{.json = true, .all = true, .totals = true}, IN_JSON TOTALS_IN_JSON},
    };
    fdb_fault faults[3], wanted = {.known = 200, .late = 2, .place = 2, .by = 0, .first = 0,
                                   .kind = FDB_FAULT_ORDER, .reason = FDB_REASON_KNOWN,
                                   .means = FDB_MEANS_ENDED, .has_late = true};
    fdb_refused refused = {77, 77};
    uint64_t size;
    uint8_t text[2000];
    for (size_t i = 0; i < sizeof cases / sizeof *cases; i++) {
        fdb_audit audit = opened(&cases[i].options, "k", "note,\xc3\xa9");
        assert(pushed(&audit, log, 10, &refused) == FDB_OK);
        assert(fdb_audit_end(&audit, &refused) == FDB_FAULT && refused.line == 77);
        assert(fdb_audit_text(&audit, text, sizeof text, &size) == FDB_OK);
        assert(size == strlen(cases[i].said) && !memcmp(text, cases[i].said, size));
        assert(fdb_audit_faults(&audit, faults, 3, &size) == FDB_OK && size == 1);
        assert(same_fault(faults, &wanted));
        fdb_audit_free(&audit);
    }
    /* without the key it is one register, and the read of line 2 is stale too */
    fdb_audit audit = opened(&PLAIN, "", "note");
    assert(pushed(&audit, log, 10, &refused) == FDB_OK);
    assert(fdb_audit_end(&audit, &refused) == FDB_FAULT);
    assert(fdb_audit_faults(&audit, faults, 3, &size) == FDB_OK && size == 2);
    assert(faults[0].place == 1 && same_fault(&faults[1], &wanted));
    fdb_audit_free(&audit);
    /* a key that is no name, a learn beside keys, and names that are no UTF-8 */
    audit = opened(&PLAIN, "k", "");
    log = "{\"client\":\"a\",\"read\":1,\"k\":[]}\n";
    assert(pushed(&audit, log, 99, &refused) == FDB_BAD_MEMBER);
    assert(refused.line == 1 && refused.member == FDB_KEY);
    fdb_audit_free(&audit);
    audit = opened(&PLAIN, "k", "");
    log = "{\"client\":\"a\",\"read\":1}\n{\"client\":\"b\",\"learn\":\"a\"}";
    assert(pushed(&audit, log, 99, &refused) == FDB_OK);
    assert(fdb_audit_end(&audit, &refused) == FDB_BAD_MEMBER);
    assert(refused.line == 2 && refused.member == FDB_LEARN);
    fdb_audit_free(&audit);
    const uint8_t bad = 0xff;
    assert(fdb_audit_new(&PLAIN, &bad, 1, &bad, 0, &audit) == FDB_BAD_MEMBER && !audit.at);
    assert(fdb_audit_new(&PLAIN, &bad, 0, &bad, 1, &audit) == FDB_BAD_MEMBER && !audit.at);
}

/* By how much a call is late: 0 where the first that outdates it ended as it began, else above 32
 * bits; of no other kind. The totals of calls name a client by its number. */
static void how_late(void) {
    uint64_t far = (uint64_t)1 << 40, size;
    fdb_call calls[] = {
        {.kind = FDB_COMMIT, .version = 300, CLIENT(1), .began = 10, .ended = 20, TIMES},
        {.kind = FDB_READ, .version = 200, CLIENT(2), .began = 5, .ended = 13, TIMES},
        {.kind = FDB_READ, .version = 100, CLIENT(3), .began = far + 13, .ended = far + 14, TIMES},
        {.kind = FDB_READ, .version = 250, CLIENT(1), .began = 20, .ended = 55, TIMES},
        {.kind = FDB_ASK, .version = 7, CLIENT(4), .began = 1, .ended = 2, TIMES},
        {.kind = FDB_ASK, .version = 7, CLIENT(5), .began = 1, .ended = 3, TIMES},
    };
    fdb_fault faults[2 * MOST], wanted[] = {
        {.place = 2, .kind = FDB_FAULT_ORDER, .reason = FDB_REASON_KNOWN, .known = 300,
         .means = FDB_MEANS_ENDED, .by = 0, .late = far, .first = 1, .has_late = true},
        {.place = 3, .kind = FDB_FAULT_ORDER, .reason = FDB_REASON_KNOWN, .known = 300,
         .means = FDB_MEANS_OWN, .by = 0, .late = 0, .first = 0, .has_late = true},
        {.place = 4, .kind = FDB_FAULT_TWICE, .reason = FDB_REASON_DRAWN, .other = 5},
        {.place = 5, .kind = FDB_FAULT_TWICE, .reason = FDB_REASON_DRAWN, .other = 4},
    };
    assert(calls_faults(calls, 6, &PLAIN, faults, 2 * MOST, &size) == FDB_FAULT && size == 4);
    for (size_t i = 0; i < size; i++) assert(same_fault(&faults[i], &wanted[i]));
    const char *said = "audit total lines 2 timed 2 reads 1 commits 1 asks 0 reports 0 learns 0 "
                       "unreported 1 ordered 1\naudit total " IN_WORDS
                       "audit total client 3 " IN_WORDS;
    fdb_call two[] = {calls[0], calls[2]};
    fdb_audit_options options = {.totals = true};
    fdb_refused refused;
    uint8_t text[1000];
    assert(fdb_audit_calls_text(two, 2, &options, text, sizeof text, &size, &refused) == FDB_FAULT);
    assert(size == strlen(said) && !memcmp(text, said, size));
}

int main(void) {
    a_stale_read();
    in_pieces();
    by_key();
    how_late();
    each_reason();
    no_fault();
    refusals();
    puts("ok");
    return 0;
}
