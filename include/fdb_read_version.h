/*
 * The part of FoundationDB's read-version path that one thread runs: the chain of commit versions,
 * the register and the queue of a GRV proxy (FoundationDB 7.1). Besides, the audit of a log of
 * calls, of any system. crates/fdb_c/README.md lists what the functions promise by proof. A person
 * wrote this header: neither it nor what it says of memory, stack and time is part of the proof.
 *
 *     cc prog.c libfdb_read_version.a liblibc_c.a
 *
 * A chain's versions end at 2^63 - 1, and its moments are in microseconds. A log's versions and
 * times are below 2^64, and its times are in any one unit. No function here locks, has a global
 * variable or keeps a pointer of the caller's.
 *
 * Memory comes from the program's malloc, realloc and free, which have to be of one allocator, and
 * to align blocks for any type. A chain grows by the answers that its proxies have not processed. A
 * queue grows by the requests that wait, and by the throttles that are not forgotten. A handle
 * keeps the memory that it took for further use, until its `..._free` frees it; all other memory
 * is freed by the function that took it. An audit or a watch takes up to 150 KB of stack: that
 * much where a line is nested as deep as it may be. The code is for x86-64-v2, and does not check
 * that the processor is.
 *
 * Where a comment lists why a function refuses, the first that stands is the first of that list
 * whose reason holds.
 *
 * Nothing checks what C passes. The caller has to keep to what the comments say of arguments, and
 * to this:
 *
 * - A pointer is not null, also where its length is 0: then any pointer of its type will do, as
 *   where FDB_ROOM is to tell a length. What a pointer points to is readable, or writable where it
 *   is not `const`. What a function writes overlaps with no other argument.
 * - A `bool` is 0 or 1.
 * - A handle is a struct of this header, of the kind that a function takes, and but for setting it
 *   to none these functions alone write it. A handle is none exactly where its `at` is NULL, as
 *   where all of it is zeros. A handle that is none may be opened, or freed, which does nothing,
 *   and must not be used otherwise. A handle that was freed is none, and one that is never freed
 *   leaks. A handle may be moved, but of its copies only one is used, by one call at a time. It may
 *   be used, and freed, on another thread than the one that opened it, where a lock, a join or the
 *   like orders the calls.
 * - No function is called from a signal handler, nor in the forked child of a program with threads.
 */
#ifndef FDB_READ_VERSION_H
#define FDB_READ_VERSION_H

#include <stdbool.h>
#include <stddef.h>
#include <stdint.h>

#ifdef __cplusplus
extern "C" {
#endif

/* The version of this header, and a function that answers the version of the library which is
 * linked: 10,000 for each major version, 100 for each minor version and 1 for each patch, added up.
 * The two may differ in the patch alone. */
#define FDB_READ_VERSION_VERSION 400
uint32_t fdb_read_version_version(void);

/* What a function answers: FDB_OK, or why it refuses. Of a log there are also FDB_FAULT, which is a
 * verdict, and FDB_UNJUDGED, which says that there is no verdict.
 * (Texts and docs/LOG.md spell FDB_NOT_JSON as NotJson.) */
enum {
    FDB_OK = 0,
    FDB_BAD_EPOCH = 1,        /* the recovery version is not above `epoch_end`, or 2^63 or more */
    FDB_NO_PROXY = 2,         /* not 1 to 64 commit proxies */
    FDB_UNKNOWN_PROXY = 3,    /* no such commit proxy */
    FDB_EARLY = 4,            /* the number is beyond the proxy's next one */
    FDB_FORGOTTEN = 5,        /* the answer is not kept any more */
    FDB_EXHAUSTED = 6,        /* the versions are used up */
    FDB_MEMORY = 7,           /* memory was refused */
    FDB_ROOM = 8,             /* an array of the caller's is too short */
    FDB_BAD_OP = 16,          /* no such operation or priority */
    FDB_BAD_CONFIG = 17,      /* the configuration, or a time between windows, is out of range */
    FDB_BAD_COUNT = 18,       /* the count is out of range */
    FDB_BATCH_THROTTLED = 19, /* no batch request is let in */
    FDB_FULL = 20,            /* the queue is full of requests that this one may not push out */
    FDB_TAG_TOO_LONG = 21,    /* the tag has more than 16 bytes */
    FDB_FAULT = 32,           /* no history explains the log: it has a fault */
    FDB_TOO_LONG = 33,        /* a line has more than 1,048,576 bytes */
    FDB_TOO_MANY = 34,        /* there are more than 4,294,967,295 lines */
    FDB_NOT_JSON = 35,        /* a line is not JSON */
    FDB_NO_CALL = 36,         /* a line names no call, or the `kind` of a call is unknown */
    FDB_TWO_CALLS = 37,       /* a line names more than one call */
    FDB_SOME_TIMES = 38,      /* some lines have times, and some have none */
    FDB_BAD_MEMBER = 39,      /* a member is missing, of another kind, or may not stand there */
    FDB_EMPTY = 40,           /* a text has no line */
    FDB_OVER = 41,            /* an earlier call ended the audit or the watch: at the log's end, as
                                 the log was refused, or as memory was */
    FDB_UNJUDGED = 42,        /* no fault was told of a watched log, but lines came that had begun
                                 before what was settled by then */
    FDB_NOT_KEPT = 43         /* a text is not what a watch of these arguments keeps */
};

/* The name of an answer of a function, such as NOT_JSON, or NULL where there is no such answer. */
static inline const char *fdb_status_name(uint8_t status) {
    switch (status) {
    case FDB_OK: return "OK";
    case FDB_BAD_EPOCH: return "BAD_EPOCH";
    case FDB_NO_PROXY: return "NO_PROXY";
    case FDB_UNKNOWN_PROXY: return "UNKNOWN_PROXY";
    case FDB_EARLY: return "EARLY";
    case FDB_FORGOTTEN: return "FORGOTTEN";
    case FDB_EXHAUSTED: return "EXHAUSTED";
    case FDB_MEMORY: return "MEMORY";
    case FDB_ROOM: return "ROOM";
    case FDB_BAD_OP: return "BAD_OP";
    case FDB_BAD_CONFIG: return "BAD_CONFIG";
    case FDB_BAD_COUNT: return "BAD_COUNT";
    case FDB_BATCH_THROTTLED: return "BATCH_THROTTLED";
    case FDB_FULL: return "FULL";
    case FDB_TAG_TOO_LONG: return "TAG_TOO_LONG";
    case FDB_FAULT: return "FAULT";
    case FDB_TOO_LONG: return "TOO_LONG";
    case FDB_TOO_MANY: return "TOO_MANY";
    case FDB_NOT_JSON: return "NOT_JSON";
    case FDB_NO_CALL: return "NO_CALL";
    case FDB_TWO_CALLS: return "TWO_CALLS";
    case FDB_SOME_TIMES: return "SOME_TIMES";
    case FDB_BAD_MEMBER: return "BAD_MEMBER";
    case FDB_EMPTY: return "EMPTY";
    case FDB_OVER: return "OVER";
    case FDB_UNJUDGED: return "UNJUDGED";
    case FDB_NOT_KEPT: return "NOT_KEPT";
    default: return NULL;
    }
}

/* -------------------------------------------------------------- the chain of commit versions -- */

/* A commit proxy's request for a commit version (GetCommitVersionRequest). */
typedef struct fdb_ask {
    uint64_t num;       /* the request's number among those of its proxy, from 1 on */
    uint64_t processed; /* the number up to which the proxy has processed its answers */
    uint64_t at;        /* the moment of the request, in microseconds */
    uint32_t proxy;     /* the commit proxy, from 0 on */
} fdb_ask;

/* The answer to a request for a commit version. On a refusal all but `status` is 0 and false,
 * except that on FDB_EARLY `num` is the number that is expected. */
typedef struct fdb_answer {
    uint64_t ordinal;   /* the version's place in the chain, from 0 on */
    uint64_t num;       /* the request's number */
    uint64_t processed; /* what the request that drew the version said is processed */
    uint64_t prev;      /* the version before `version` in the chain */
    uint64_t version;   /* the commit version */
    uint64_t at;        /* the moment of the request that drew the version */
    uint32_t proxy;     /* the commit proxy that the version was issued to */
    uint8_t status;     /* FDB_OK, or the refusal */
    bool fresh;         /* true: this request drew the version; false: a kept answer came again */
} fdb_answer;

/* The handle of a chain, or none. */
typedef struct fdb_chain {
    void *at;
} fdb_chain;
#define FDB_CHAIN_NONE {NULL}

/*
 * Opens a chain with no answers yet, for an epoch that begins with the version `recovery` and has
 * `proxies` commit proxies, after an epoch that ended with the version `epoch_end`. `*chain` must
 * be none.
 *
 * FDB_OK, else FDB_BAD_EPOCH, FDB_NO_PROXY or FDB_MEMORY, the first that stands; `*chain` is then
 * still none.
 */
uint8_t fdb_chain_new(uint64_t epoch_end, uint64_t recovery, uint32_t proxies, fdb_chain *chain);

/*
 * Answers a request for a commit version. A request with its proxy's next number draws the next
 * version. A request whose answer is kept gets that answer again, with `fresh` false, and changes
 * nothing. Each proxy numbers its own requests, from 1 on. `*chain` must be a chain.
 *
 * The first version is the recovery version, and its `prev` the end of the epoch before. Each
 * later version is above the one before by the microseconds between the requests that drew the
 * two, by 1 at least and 5,000,000 at most. Where the later request has the earlier moment, the
 * step is 1, and the next step counts from that earlier moment.
 *
 * A request that draws a version has the chain forget the kept answers of its proxy up to its
 * `processed`, but never its own answer. The number 0 has no answer: a request with it is refused
 * with FDB_FORGOTTEN. An answer takes up to 144 bytes until it is forgotten: where the proxies
 * process what they get, a chain stops growing, and where one never does, the chain runs out of
 * memory in the end.
 *
 * FDB_OK, else FDB_UNKNOWN_PROXY, FDB_EARLY, FDB_FORGOTTEN, FDB_EXHAUSTED, the first that stands;
 * `answer->status` is the same, and a refusal leaves the chain as it was. FDB_MEMORY comes only
 * where a version would be drawn, and leaves chain and answer, and so `answer->status`, as they
 * were. Constant time.
 */
uint8_t fdb_chain_ask(fdb_chain *chain, const fdb_ask *ask, fdb_answer *answer);

/* Frees a chain; the handle is then none. With FDB_CHAIN_NONE it does nothing. */
void fdb_chain_free(fdb_chain *chain);

/*
 * Opens a chain as fdb_chain_new does, answers `asks` to it in their order, and frees it.
 *
 * FDB_OK, and answers[i] is the answer to asks[i]; the rest of `answers` is as it was. Else
 * FDB_ROOM where `answers` is shorter than `asks`, FDB_BAD_EPOCH or FDB_NO_PROXY, the first that
 * stands: then nothing is written. Else FDB_MEMORY, also where a request was refused for memory:
 * what `answers` then has is not specified.
 */
uint8_t fdb_chain_answers(uint64_t epoch_end, uint64_t recovery, uint32_t proxies,
                          const fdb_ask *asks, size_t asks_length,
                          fdb_answer *answers, size_t answers_length);

/* ----------------------------------------------------------------------------- the register -- */

/* The register: what the sequencer keeps of the newest commit that was reported. The caller writes
 * a new one, with the recovery version as its `version`, and 0 and false in all else. */
typedef struct fdb_record {
    uint64_t version;     /* the live committed version */
    uint64_t min_known;   /* the minimum known committed version */
    uint8_t metadata[10]; /* the metadata version, or zeros where there is none */
    bool has_metadata;    /* whether there is a metadata version */
    bool locked;          /* whether the database is locked */
} fdb_record;

/* Makes `*kept` the record after a report (updateLiveCommittedVersion): a report of a greater
 * version replaces version, lock and metadata version, and of the two minima the greater is
 * kept. */
void fdb_record_after_report(fdb_record *kept, const fdb_record *reported);

/* The read version that a record gives: its `version`, or with `use_min` its `min_known`. */
uint64_t fdb_record_version_for(const fdb_record *kept, bool use_min);

/* ----------------------------------------------------------------- the queue of a GRV proxy -- */

/* Priorities (TransactionPriority): no rate holds back system requests, the normal rate holds back
 * default requests, and both rates hold back batch requests. */
enum { FDB_SYSTEM = 0, FDB_DEFAULT = 1, FDB_BATCH = 2 };

/* The capacity of a queue, and its two rates. A rate is how many transactions a window may start
 * beside those that the rate's budget has; the budget gains as many in two seconds. */
typedef struct fdb_queue_config {
    uint64_t normal; /* 1 to 100,000 */
    uint64_t batch;  /* 0 to 100,000; with 0 no batch request is let in */
    uint64_t room;   /* the most requests that wait: 1 to 100,000 */
} fdb_queue_config;

/* A request for a read version. */
typedef struct fdb_request {
    uint64_t count;   /* how many transactions: 1 to 100,000; of a batch one at most normal + 10 */
    uint64_t payload; /* what the request carries, which comes out as it went in */
    uint8_t priority; /* FDB_SYSTEM, FDB_DEFAULT or FDB_BATCH */
} fdb_request;

/* The outcome of an operation, and what the queue then is. On a refusal the queue is what it was,
 * and all from `started` to `has_out` is 0 and false. */
typedef struct fdb_outcome {
    uint64_t normal;        /* the budget of the normal rate: FDB_TRANSACTION are one transaction */
    uint64_t batch;         /* the budget of the batch rate, counted in the same way */
    uint64_t system_waits;  /* how many system requests wait */
    uint64_t default_waits; /* how many default requests wait */
    uint64_t batch_waits;   /* how many batch requests wait */
    uint64_t started;       /* how many requests the operation started */
    fdb_request out;        /* the request that was pushed out or taken out, or 0 */
    bool has_out;           /* whether there is a request in `out` */
    uint8_t status;         /* FDB_OK, or the refusal */
} fdb_outcome;

/* The handle of a queue, or none. The row of a queue is all requests that wait, in the order in
 * which they start: first the system requests, then the default ones, then the batch ones, and
 * those of one priority as they came. */
typedef struct fdb_queue {
    void *at;
} fdb_queue;
#define FDB_QUEUE_NONE {NULL}

#define FDB_TRANSACTION 2000000 /* one transaction in a budget: two seconds in microseconds */
#define FDB_MOST_STARTED 10000  /* the most requests that a window starts */

/*
 * Opens a queue in which nothing waits, with budgets of 0. `*queue` must be none.
 *
 * FDB_OK, else FDB_BAD_CONFIG or FDB_MEMORY; `*queue` is then still none.
 */
uint8_t fdb_queue_new(const fdb_queue_config *config, fdb_queue *queue);

/*
 * Lets a request in, at the end of the list of its priority. Where the queue is full, the oldest
 * request of a lower priority is pushed out, batch requests first, and is in `outcome->out`.
 * `*queue` must be a queue.
 *
 * FDB_OK, else FDB_BAD_OP (no such priority), FDB_BAD_COUNT, FDB_BATCH_THROTTLED or FDB_FULL, the
 * first that stands; `outcome->status` is the same, and a refusal leaves the queue as it was.
 * Where none of these stands, FDB_MEMORY may come, which leaves queue and outcome as they were.
 * Constant time.
 */
uint8_t fdb_queue_offer(fdb_queue *queue, const fdb_request *request, fdb_outcome *outcome);

/*
 * Holds a window, `elapsed` microseconds (1 to 10,000,000) after the last one, or after the queue
 * was opened: starts the first requests of the row, up to the first that may not start and
 * FDB_MOST_STARTED at most, and writes them to the start of `started`, in order. `started` needs
 * room for as many as wait, or for FDB_MOST_STARTED where more wait. `*queue` must be a queue.
 *
 * Let `sum` be the transactions of a request and of all that start before it in this window. A
 * system request may always start, a default one where the normal rate lets it, and a batch one
 * where both rates let it. A rate lets a request start where
 *
 *     sum * FDB_TRANSACTION <= rate * FDB_TRANSACTION + budget   and   sum <= 100,000
 *
 * Then a rate's budget becomes `budget + elapsed * (rate - paid)`, where `paid` are the
 * transactions that started: for the batch rate all, for the normal rate those of system and
 * default requests. Where this is below 0, the budget becomes 0. A budget is
 * at most 100,000 transactions, or 10 where no request waits any more that this rate would pay for.
 *
 * FDB_ROOM, else FDB_BAD_CONFIG for a time out of range, else FDB_MEMORY or FDB_OK. With FDB_OK
 * and FDB_BAD_CONFIG `outcome->status` is the same, and FDB_BAD_CONFIG leaves the queue as it was.
 * FDB_ROOM and FDB_MEMORY leave queue, outcome and `started` as they were. Linear in what the
 * window starts.
 */
uint8_t fdb_queue_window(fdb_queue *queue, uint64_t elapsed, fdb_outcome *outcome,
                         fdb_request *started, size_t started_length);

/* Takes the first request of the row out, whatever the rates say of it, and gives it in
 * `outcome->out`, if there is one. `outcome->status` is FDB_OK, and the budgets stay. `*queue` must
 * be a queue. Constant time, and no memory. */
void fdb_queue_pop(fdb_queue *queue, fdb_outcome *outcome);

/* A batch request that new rates turned away. */
typedef struct fdb_turned_away {
    fdb_request request;
    uint8_t cause; /* FDB_BAD_COUNT or FDB_BATCH_THROTTLED */
} fdb_turned_away;

/*
 * Sets the two rates, as in fdb_queue_config, from the next window on. The capacity, the budgets
 * and the throttles stay. A request that waits, and would be let into a new queue of these rates,
 * waits on. The others, all of them batch requests, are written to the start of `turned_away`, in
 * order, each with the cause for which it would be refused, and `*size` is how many they are.
 * `turned_away` needs room for all batch requests that wait. No request is turned away where the
 * normal rate does not fall and the batch rate is not 0. `*queue` must be a queue.
 *
 * FDB_OK, else FDB_ROOM, with `*size` the length that is needed, FDB_BAD_CONFIG (a rate is out of
 * range) or FDB_MEMORY, the first that stands; all else is then as it was. FDB_MEMORY comes only
 * where some would be turned away. Linear in the batch requests that wait.
 */
uint8_t fdb_queue_set_rates(fdb_queue *queue, uint64_t normal, uint64_t batch,
                            fdb_turned_away *turned_away, size_t turned_away_length,
                            uint64_t *size);

/*
 * Answers whether the first request of the row waits for the rate of its own priority alone. Then
 * `*windows` is how many windows of `elapsed` microseconds start nothing before one starts that
 * request, with no offer and no new rates between them. The answer is false for an empty row, for a
 * system request, for a batch request that the normal rate may hold back or where the batch rate is
 * 0, and for a time out of range. `*queue` must be a queue. Constant time, no memory.
 */
bool fdb_queue_waits(fdb_queue *queue, uint64_t elapsed, uint64_t *windows);

/*
 * Sets the throttle of a tag, of 0 to 16 bytes, at a priority, in the place of an older one:
 * `rate` transactions per second, until the moment `expires`, in microseconds. A throttle is kept
 * only to be asked for: none changes what a queue lets in or starts. `*queue` must be a queue.
 *
 * FDB_OK, else FDB_BAD_OP (no such priority), FDB_TAG_TOO_LONG or FDB_MEMORY, the first that
 * stands; the queue is then as it was. Logarithmic time.
 */
uint8_t fdb_queue_set_throttle(fdb_queue *queue, uint8_t priority,
                               const uint8_t *tag, size_t tag_length,
                               uint64_t rate, uint64_t expires);

/* The throttle of a tag at a moment: the one that was set last, if it expires later than that
 * moment. Where there is none, all is 0 and false. */
typedef struct fdb_limit {
    uint64_t rate;    /* transactions per second */
    uint64_t expires; /* the moment from which on the throttle holds no longer */
    bool holds;       /* whether there is such a throttle */
} fdb_limit;

/*
 * Tells the throttle of a tag at a priority and the moment `at`; a tag that is too long has none.
 * `*queue` must be a queue.
 *
 * FDB_OK, else FDB_BAD_OP (no such priority) or FDB_MEMORY; `*limit` is then as it was. Logarithmic
 * time.
 */
uint8_t fdb_queue_throttle(fdb_queue *queue, uint8_t priority,
                           const uint8_t *tag, size_t tag_length,
                           uint64_t at, fdb_limit *limit);

/* Forgets each throttle that expires at the moment `at` or before: at that moment and later all
 * answers are as if none were forgotten. `*queue` must be a queue. Linear in the throttles, and no
 * memory. */
void fdb_queue_forget_throttles(fdb_queue *queue, uint64_t at);

/* Frees a queue; the handle is then none. With FDB_QUEUE_NONE it does nothing. */
void fdb_queue_free(fdb_queue *queue);

/* An operation, for fdb_queue_outcomes. */
enum { FDB_OP_OFFER = 0, FDB_OP_WINDOW = 1, FDB_OP_POP = 2 };
typedef struct fdb_op {
    uint64_t amount;  /* of an offer the count, of a window the microseconds since the last one */
    uint64_t payload; /* of an offer what the request carries */
    uint8_t kind;     /* FDB_OP_OFFER, FDB_OP_WINDOW or FDB_OP_POP */
    uint8_t priority; /* of an offer the request's priority */
} fdb_op;

/*
 * Opens a queue as fdb_queue_new does, carries out `ops` on it in their order, and frees it.
 *
 * FDB_OK, and outcomes[i] is the outcome of ops[i] (FDB_BAD_OP where ops[i] is no operation);
 * `started` has at its start all requests that were started, in order, and `*size` is how many.
 * Else FDB_ROOM where `outcomes` is shorter than `ops`, or FDB_BAD_CONFIG where the configuration
 * is out of range, the first that stands: then nothing is written. Else FDB_MEMORY: what was
 * written is not specified. Else FDB_ROOM where `started` is too short: `outcomes` are written,
 * `*size` is the length that `started` needs, and nothing is written to `started`.
 */
uint8_t fdb_queue_outcomes(const fdb_queue_config *config,
                           const fdb_op *ops, size_t ops_length,
                           fdb_outcome *outcomes, size_t outcomes_length,
                           fdb_request *started, size_t started_length, uint64_t *size);

/* ------------------------------------------------------------------------ the audit of a log -- */

/* The members of a line of JSON. A call is one of FDB_READ to FDB_LEARN. */
enum {
    FDB_CLIENT = 1, /* whose call it was */
    FDB_READ = 2,   /* a read got a version */
    FDB_COMMIT = 3, /* a commit got a version, which was drawn and reported during the call */
    FDB_ASK = 4,    /* a commit version was drawn */
    FDB_REPORT = 5, /* a version was reported as committed */
    FDB_LEARN = 6,  /* from here on the client knows what another knew by the lines above */
    FDB_BEGAN = 7,  /* when a call began */
    FDB_ENDED = 8,  /* when a call ended */
    FDB_KEY = 9     /* the key: a member of the name that the caller gave */
};

/* The name of a member in a line, and "key" for the key; or NULL where there is no such member. */
static inline const char *fdb_member_name(uint8_t member) {
    switch (member) {
    case FDB_CLIENT: return "client";
    case FDB_READ: return "read";
    case FDB_COMMIT: return "commit";
    case FDB_ASK: return "ask";
    case FDB_REPORT: return "report";
    case FDB_LEARN: return "learn";
    case FDB_BEGAN: return "began";
    case FDB_ENDED: return "ended";
    case FDB_KEY: return "key";
    default: return NULL;
    }
}

/* A line of a log that is an array of calls: all of them have times, or none has. Set `has_client`,
 * `has_times` and `has_ended` beside the members that they stand for. A member without its flag is
 * passed over, so that a log with a stale read may be FDB_OK; only the text of an audit tells how
 * much was compared (`timed`, `ordered`). */
typedef struct fdb_call {
    uint64_t version; /* the version; FDB_LEARN does not use it */
    uint64_t began;   /* with `has_times`, when the call began, in any one unit */
    uint64_t ended;   /* with `has_ended` too, when the call ended: not before it began; without
                         `has_ended` it comes before no other call, not of its own client either */
    uint32_t client;  /* with `has_client`, whose call it was, by any number */
    uint32_t teller;  /* of FDB_LEARN, from whom the client has learnt: a client of a call above */
    uint8_t kind;     /* FDB_READ, FDB_COMMIT, FDB_ASK, FDB_REPORT or, without times, FDB_LEARN */
    bool has_client;  /* whether it is known whose call it was; without times this has to be true */
    bool has_times;   /* whether the log has times */
    bool has_ended;   /* whether it is known when the call ended */
} fdb_call;

/* What an audit is told beside the log, and what its text has. The text is that of the program
 * fdb_audit, whose --all sets `all` and `totals`, --summary sets `totals` alone, and --json sets
 * `json`, `all` and `totals`. */
typedef struct fdb_audit_options {
    uint64_t start;  /* with `complete`, the version that all began with */
    uint64_t margin; /* how far the clocks of two clients may be apart, in the unit of the times */
    bool complete;   /* whether the log has all calls; if not, others may have asked and reported */
    bool all;        /* whether the text has all faults, and not the first alone */
    bool history;    /* whether the text of a log without a fault has an order that explains it */
    bool totals;     /* whether the text has, where a fault stands, how much was judged and how many
                        faults there are of each kind; without `all` it then has these alone */
    bool json;       /* whether the text has JSON objects, one a line, and not sentences */
} fdb_audit_options;

/* Why a log is refused, beside the status. */
typedef struct fdb_refused {
    uint64_t line;  /* which line, counted from 1: of an audit the first that is wrong, of a watch
                       the last that is, or on FDB_UNJUDGED the last that came early; on FDB_EMPTY
                       0 */
    uint8_t member; /* on FDB_BAD_MEMBER which member, from FDB_CLIENT to FDB_KEY; else 0 */
} fdb_refused;

/* What can be wrong with a line. */
enum {
    FDB_FAULT_ORDER = 1,     /* a read below what its caller knew: a stale read */
    FDB_FAULT_WRONG = 2,     /* a read of a version that nobody can have reported when it was new */
    FDB_FAULT_NOT_ABOVE = 3, /* a version was drawn that is not above all that its caller knew */
    FDB_FAULT_TWICE = 4,     /* a version was drawn twice, and not by commits alone */
    FDB_FAULT_STRAY = 5      /* a report of a version that others drew, or nobody can have drawn */
};

/* The name of a kind of fault, as a text has it, or NULL where there is no such kind. */
static inline const char *fdb_fault_name(uint8_t kind) {
    switch (kind) {
    case FDB_FAULT_ORDER: return "Order";
    case FDB_FAULT_WRONG: return "Wrong";
    case FDB_FAULT_NOT_ABOVE: return "NotAbove";
    case FDB_FAULT_TWICE: return "Twice";
    case FDB_FAULT_STRAY: return "Stray";
    default: return NULL;
    }
}

/* Why a fault stands. */
enum {
    FDB_REASON_KNOWN = 1,      /* of ORDER and NOT_ABOVE: the caller knew `known` */
    FDB_REASON_UNREPORTED = 2, /* of WRONG: no line reports the version */
    FDB_REASON_REPORTED = 3,   /* of WRONG: `other`, the first line that reports it, knew `known` */
    FDB_REASON_DRAWN = 4,      /* of TWICE, STRAY: `other` is the first other line that drew it */
    FDB_REASON_UNDRAWN = 5     /* of STRAY: no line drew the version */
};

/* How a version was known. */
enum {
    FDB_MEANS_START = 1, /* all began with the version, and no line let it be known */
    FDB_MEANS_ENDED = 2, /* line `by` had ended before, by more than the margin */
    FDB_MEANS_OWN = 3,   /* line `by` is an earlier one of the same client */
    FDB_MEANS_LEARNT = 4 /* the client had learnt of line `by`, by its own line `learnt` */
};

/* A fault, and why it stands. Here lines are told by their places, counted from 0, as an array's
 * elements; a text and fdb_refused count them from 1. What the fault's reason does not name is 0. */
typedef struct fdb_fault {
    uint64_t known;  /* the greatest version that was known: of REASON_KNOWN and REASON_REPORTED */
    uint64_t late;   /* with `has_late`, by how much the call was late, in the times' unit: the time
                        from the end of `first` to where the call began, or 0 where `first` had not
                        ended when the call began; the fault stands under each lesser margin */
    uint32_t place;  /* of the line at which the fault stands */
    uint32_t other;  /* the line that reported or drew: of REASON_REPORTED and REASON_DRAWN */
    uint32_t by;     /* the line that let `known` be known; of several, any */
    uint32_t learnt; /* the line by which the client had learnt of `by` */
    uint32_t first;  /* with `has_late`, the first to end of the lines that outdate the call: they
                        have a newer version than was read, or one at least as new as was drawn */
    uint8_t kind;    /* FDB_FAULT_ORDER to FDB_FAULT_STRAY */
    uint8_t reason;  /* FDB_REASON_KNOWN to FDB_REASON_UNDRAWN */
    uint8_t means;   /* how `known` was known, FDB_MEANS_START to FDB_MEANS_LEARNT */
    bool has_late;   /* whether `late` and `first` are told: of ORDER and NOT_ABOVE alone, in a log
                        with times. A line that outdates the call must have a known end. A call of
                        NOT_ABOVE outdates the version that it drew itself: where it is the first of
                        all these lines to end, this is false */
} fdb_fault;

/*
 * Audits the log that a text of JSON Lines stands for (docs/LOG.md), and writes what is found
 * to the start of `text`, in UTF-8, with no NUL. Of a log without a fault the text has the counts
 * and, with `history`, an order that explains the log. Of any other log it has the first fault, or
 * with `all` each, and why it stands. Each line of the text ends with a line feed. Of the log
 *
 *     {"client":"a","commit":200,"began":10,"ended":14}
 *     {"client":"b","read":100,"began":15,"ended":16}
 *
 * the text is one line, which is broken here:
 *
 *     audit fault: Order 2: client "b" read 100, but 200 was known:
 *         line 1 (client "a", commit 200) had ended 1 before line 2 began
 *
 * With `all` and `totals` too the text has such a line for each fault and then, in this case,
 *
 *     audit total lines 2 timed 2 reads 1 commits 1 asks 0 reports 0 learns 0 unreported 1 ordered 1
 *     audit total faults 1 Order 1 Wrong 0 NotAbove 0 Twice 0 Stray 0
 *     audit total client "b" faults 1 Order 1 Wrong 0 NotAbove 0 Twice 0 Stray 0
 *
 * FDB_OK where some history explains the log, else FDB_FAULT; `*size` is how long the text is.
 * Where `text` is too short, FDB_ROOM comes instead of both: `*size` is then the length that
 * `text` needs, and nothing is written to `text`. A refusal of the log comes before all of these:
 * FDB_EMPTY where it has no line, and for the first line that is wrong FDB_TOO_LONG, FDB_TOO_MANY,
 * FDB_NOT_JSON, FDB_BAD_MEMBER (client), FDB_NO_CALL, FDB_TWO_CALLS, FDB_BAD_MEMBER (the call,
 * began, ended), FDB_SOME_TIMES, FDB_BAD_MEMBER (learn with times; no client without), the first
 * that stands: `*refused` says which line and member. FDB_MEMORY may come instead of any of these.
 * Where the log or memory is refused, nothing but `*refused` is written; otherwise `*refused` is
 * as it was. `n log n` in the lines, and linear in the bytes.
 */
uint8_t fdb_audit_log_text(const uint8_t *log, size_t log_length,
                           const fdb_audit_options *options,
                           uint8_t *text, size_t text_length, uint64_t *size,
                           fdb_refused *refused);

/*
 * Audits the log that a text of JSON Lines stands for, and writes all faults to the start of
 * `faults`, by line. Of the options only `complete`, `start` and `margin` count here. At one line
 * stand two faults at most.
 *
 * Answers as fdb_audit_log_text does, with `*size` how many faults there are, which is 0 on FDB_OK.
 * The rest of `faults` is as it was.
 */
uint8_t fdb_audit_log_faults(const uint8_t *log, size_t log_length,
                             const fdb_audit_options *options,
                             fdb_fault *faults, size_t faults_length, uint64_t *size,
                             fdb_refused *refused);

/*
 * Audits a log whose lines are `calls`, and writes a text as fdb_audit_log_text does, in which
 * `client 2` is the client with the number 2.
 *
 * Answers as fdb_audit_log_text does, but for the first call that is wrong FDB_NO_CALL (`kind`),
 * FDB_BAD_MEMBER (FDB_LEARN: no call above is the teller's; FDB_ENDED: it ended before it began),
 * FDB_TOO_MANY, FDB_SOME_TIMES, FDB_BAD_MEMBER (FDB_LEARN with times; FDB_CLIENT: none, and no
 * times), the first that stands. A log without calls has no fault. `n log n` in the calls, and in
 * the clients.
 */
uint8_t fdb_audit_calls_text(const fdb_call *calls, size_t calls_length,
                             const fdb_audit_options *options,
                             uint8_t *text, size_t text_length, uint64_t *size,
                             fdb_refused *refused);

/* Audits a log whose lines are `calls`, writes all faults as fdb_audit_log_faults does (each stands
 * at `calls[faults[i].place]`), and refuses the log as fdb_audit_calls_text does. */
uint8_t fdb_audit_calls_faults(const fdb_call *calls, size_t calls_length,
                               const fdb_audit_options *options,
                               fdb_fault *faults, size_t faults_length, uint64_t *size,
                               fdb_refused *refused);

/* The handle of an audit of a log that comes piece by piece, and then of what it found; or none. */
typedef struct fdb_audit {
    void *at;
} fdb_audit;
#define FDB_AUDIT_NONE {NULL}

/*
 * Opens an audit of a text of JSON Lines of which nothing has come. `key` is the name, in UTF-8,
 * of the member that has a line's key, and each key is then judged by itself, as one register;
 * `shown` are the names of members that the text has beside each line that it tells, parted by
 * commas, each named once and not the key's. Either may be empty: then there are no keys, and no
 * member is shown. `*audit` must be none.
 *
 * FDB_OK, else FDB_BAD_MEMBER (`key` or `shown` is no UTF-8) or FDB_MEMORY; `*audit` is then still
 * none.
 */
uint8_t fdb_audit_new(const fdb_audit_options *options, const uint8_t *key, size_t key_length,
                      const uint8_t *shown, size_t shown_length, fdb_audit *audit);

/*
 * Takes the next bytes of the text, cut anywhere. The audit keeps the log's lines and not their
 * bytes. `*audit` must be an audit.
 *
 * FDB_OK, else the refusal of the first line that is wrong, as by fdb_audit_log_text, whatever may
 * come after that line, and `*refused` says which line. With keys FDB_BAD_MEMBER comes also where
 * a client has learnt (FDB_LEARN), and where a key is no string and no whole number (FDB_KEY). Or
 * FDB_MEMORY. A refusal and FDB_MEMORY end the audit, and what it kept of the log is freed.
 * FDB_OVER where the audit was over before; nothing has changed then. Linear in the bytes.
 */
uint8_t fdb_audit_push(fdb_audit *audit, const uint8_t *bytes, size_t bytes_length,
                       fdb_refused *refused);

/*
 * Audits the log, which ends here; a last line that came without a line feed is one of its lines.
 * What the audit kept of the log is freed, and what it found stays. The audit is then over.
 * `*audit` must be an audit.
 *
 * FDB_OK or FDB_FAULT; else the refusal, as by fdb_audit_push, and FDB_EMPTY where no line has
 * come. FDB_OVER where the audit was over before. With FDB_MEMORY or a refusal nothing is found.
 * `n log n` in the lines, twice.
 */
uint8_t fdb_audit_end(fdb_audit *audit, fdb_refused *refused);

/*
 * Writes the text of what was found to the start of `text`, with no NUL, as fdb_audit_log_text
 * does. The text is empty until fdb_audit_end has answered FDB_OK or FDB_FAULT. It may be asked for
 * as often as one likes. `*audit` must be an audit.
 *
 * FDB_OK, and `*size` is how long the text is; or FDB_ROOM where `text` is too short: `*size` is
 * then the length that `text` needs, and nothing is written to `text`. No memory.
 */
uint8_t fdb_audit_text(fdb_audit *audit, uint8_t *text, size_t text_length, uint64_t *size);

/* Writes all faults that were found, by line, to the start of `faults`, as fdb_audit_text writes
 * the text; `*size` is how many faults there are. */
uint8_t fdb_audit_faults(fdb_audit *audit, fdb_fault *faults, size_t faults_length,
                         uint64_t *size);

/* Frees an audit, over or not; the handle is then none. With FDB_AUDIT_NONE it does nothing. */
void fdb_audit_free(fdb_audit *audit);

/* -------------------------------------------------------------- the watch of a log that grows -- */

/* How a log is watched, and what is told of it. */
typedef struct fdb_watch_options {
    uint64_t behind; /* how far behind the newest end a line may begin, in the times' unit */
    uint64_t margin; /* how far the clocks of two clients may be apart, in the times' unit */
    bool totals;     /* whether the end tells how much was read, and how many faults of each kind:
                        where a fault was told, or with `json` */
    bool json;       /* whether JSON objects are told, and not sentences */
} fdb_watch_options;

/* The handle of a watch, or none. A watch keeps the lines that may yet come to matter, the name of
 * each client and key, 8 bytes for each line that was refused and, with `totals`, counts of at most
 * 65,536 clients, keys and texts of each shown member. */
typedef struct fdb_watch {
    void *at;
} fdb_watch;
#define FDB_WATCH_NONE {NULL}

/*
 * Opens a watch of a log of which nothing has come: what `fdb_audit --follow` is (docs/LOG.md).
 * `key` is the name, in UTF-8, of the member that has a line's key, and each key is then watched by
 * itself; `shown` are the names of members that the text has beside each line that it tells, as for
 * fdb_audit_new. `*watch` must be none.
 *
 * FDB_OK, else FDB_BAD_MEMBER (`key` or `shown` is no UTF-8) or FDB_MEMORY; `*watch` is then still
 * none.
 */
uint8_t fdb_watch_new(const fdb_watch_options *options, const uint8_t *key, size_t key_length,
                      const uint8_t *shown, size_t shown_length, fdb_watch *watch);

/*
 * Opens a watch that goes on from what a watch of the same arguments kept: `kept` is what
 * fdb_watch_keep wrote, or the bytes of a file of `fdb_audit --keep`. It tells of the lines that
 * come, which are those behind the first `kept_lines` lines of the log (docs/LOG.md), what that one
 * would have told. All but `totals` and `json` have to be as they were there; a file that has a
 * position (`--position`) is not taken, nor one that keeps no line, but says how many were read
 * (FDB_NO_CALL). A text without a line opens a watch as fdb_watch_new does. `*watch` must be none.
 *
 * FDB_OK, else FDB_BAD_MEMBER (`key` or `shown` is no UTF-8: `refused->line` is then 0); or of the
 * first line of `kept` that is not as it was kept FDB_NOT_KEPT, which of line 1 may also say that
 * it was kept by other arguments, or why a log is refused, from FDB_TOO_LONG to FDB_BAD_MEMBER;
 * FDB_NOT_JSON also where the last line has no end. `*refused` says which line, counted from 1 in
 * `kept`. Or FDB_MEMORY. But for FDB_OK `*watch` is still none, and for FDB_OK and FDB_MEMORY
 * `*refused` is as it was. `n log n` in the lines that were kept, and linear in the bytes.
 */
uint8_t fdb_watch_restore(const fdb_watch_options *options, const uint8_t *key, size_t key_length,
                          const uint8_t *shown, size_t shown_length,
                          const uint8_t *kept, size_t kept_length,
                          fdb_watch *watch, fdb_refused *refused);

/*
 * Takes the next bytes of a text of JSON Lines, cut anywhere. A line that is refused, also one
 * without times, is left out; the next fdb_watch_tell or fdb_watch_end tells of it among the
 * warnings. `*watch` must be a watch.
 *
 * FDB_OK. FDB_MEMORY ends the watch: what it kept of the log is freed, what was said last stays.
 * FDB_OVER where the watch was over before; nothing has changed then. Linear in the bytes.
 */
uint8_t fdb_watch_push(fdb_watch *watch, const uint8_t *bytes, size_t bytes_length);

/*
 * Says what has become certain since it said so last: each stale read, and each version that was
 * drawn and is not above what its caller knew, once. With `is_idle`, which is always allowed, the
 * watch looks at once. Without `is_idle`, for where more is there to be read, it looks only once
 * 8,192 lines that were not refused have come since it last looked. It looks at each call that
 * began more than `behind` before the newest end, and the log is then settled up to there. The
 * newest end is the newest that is believed: an end that is further ahead of what other clients'
 * lines have is not believed, so that one clock that is ahead moves nothing (docs/LOG.md).
 *
 * A line that comes later, but began before where the log is settled, came early. Such a line is
 * not refused, and its version counts, but it is judged only if it began at most `behind` before
 * where the log is settled or, with a `key`, before where its own key settled last: a key of which
 * no line came may stay further behind.
 *
 * What is said, which may be nothing, is then the text, and the warnings are those since the last
 * time; the text and the warnings of before are gone. `*watch` must be a watch.
 *
 * FDB_OK, else FDB_OVER or FDB_MEMORY, as fdb_watch_push; text and warnings are then as they were.
 * `n log n` in the lines that are kept.
 */
uint8_t fdb_watch_tell(fdb_watch *watch, bool is_idle);

/*
 * Says what is left where the log ends: the text and the warnings are then that, as by
 * fdb_watch_tell, and the watch is over. A last line that came without a line feed is one of the
 * log's lines. Where no fault was told, the text is one line: `audit ok`, or `audit early` where
 * lines came early, and the counts `lines`, `reads`, `commits`, `asks`, `reports`, `refused` and
 * `early`; then, where lines came early, how many of them were `judged`, and, where some ends were
 * found to be `ahead`, how many. With `json` there is no such line: the text is then empty, or with
 * `totals` has the totals as objects. `*watch` must be a watch.
 *
 * FDB_FAULT where a fault was told, at any time. Else why the last refused line was refused, from
 * FDB_TOO_LONG to FDB_BAD_MEMBER, as by fdb_audit_end, and `*refused` says which line it was;
 * FDB_EMPTY where no line came or was kept. Else FDB_UNJUDGED where lines came early, and
 * `*refused` says which of them was the last: then not all was judged, since `behind` is too small,
 * or a clock is ahead. Else FDB_OK. FDB_OVER and FDB_MEMORY leave text and warnings as they were.
 * But for a refusal and FDB_UNJUDGED `*refused` is as it was.
 */
uint8_t fdb_watch_end(fdb_watch *watch, fdb_refused *refused);

/*
 * Writes what was said last to the start of `text`, with no NUL: nothing where nothing was said.
 * The text may be asked for as often as one likes, also when the watch is over. `*watch` must be a
 * watch.
 *
 * FDB_OK, and `*size` is how long the text is; or FDB_ROOM where `text` is too short: `*size` is
 * then the length that `text` needs, and nothing is written to `text`. No memory.
 */
uint8_t fdb_watch_text(fdb_watch *watch, uint8_t *text, size_t text_length, uint64_t *size);

/* Writes the warnings that came with what was said last, as fdb_watch_text writes the text. There
 * is a line for each line that was refused: which line, and why. There is also a line for the
 * first, second, fourth, eighth and so on that came early, or that shows that a clock is ahead:
 * which line, by how much, and how many did so far. */
uint8_t fdb_watch_warnings(fdb_watch *watch, uint8_t *text, size_t text_length, uint64_t *size);

/*
 * Writes the text of what is kept to the start of `text`, with no NUL: the lines that may yet come
 * to matter, by which fdb_watch_restore goes on, or `fdb_audit --follow --keep`, as their bytes in
 * its file. Ask for it once what was said has been written where it is to go: it is not said again,
 * and neither are warnings. A line that has come without its end is not kept, nor counted in
 * `kept_lines`: it is to come again, whole. `*watch` must be a watch, and goes on as it was.
 *
 * FDB_OK, and `*size` is how long the text is; nothing is kept where that is 0, not even how many
 * lines were read, as of a log whose lines were all refused. Or FDB_ROOM where `text` is too short:
 * `*size` is then the length that `text` needs, and nothing is written to `text`, but the text is
 * held until it is written, or the watch is told more, tells or ends: so it is made once. Else
 * FDB_OVER, FDB_MEMORY or FDB_NOT_KEPT: a text that is made is read back, and does not say what is
 * kept; then nothing is written. `n log n` in the lines that are kept.
 */
uint8_t fdb_watch_keep(fdb_watch *watch, uint8_t *text, size_t text_length, uint64_t *size);

/* How far a log has been followed, as `fdb_audit --follow --json` tells it in `watched`. Lines that
 * were kept of others (fdb_watch_restore) are among `open` and `kept` alone. */
typedef struct fdb_watch_counted {
    uint64_t lines;      /* lines that were not refused */
    uint64_t reads;      /* and of each kind */
    uint64_t commits;
    uint64_t asks;
    uint64_t reports;
    uint64_t refused;    /* lines that were refused */
    uint64_t early;      /* lines that came early */
    uint64_t judged;     /* how many of these were judged */
    uint64_t ahead;      /* how often an end was found to be ahead of a line that came later */
    uint64_t open;       /* lines of which not all is told that there is to tell */
    uint64_t kept;       /* lines that are kept, those that are open among them */
    uint64_t newest_end; /* the newest end that is believed, in the times' unit; 0 where none is */
    uint64_t settled_to; /* the moment up to which all is told */
} fdb_watch_counted;

/* Writes to `*counts` how far the log has been followed. `*watch` must be a watch. FDB_OK, or
 * FDB_OVER, which writes nothing. Constant time; no memory. */
uint8_t fdb_watch_counts(fdb_watch *watch, fdb_watch_counted *counts);

/* Frees a watch, over or not; the handle is then none. With FDB_WATCH_NONE it does nothing. */
void fdb_watch_free(fdb_watch *watch);

#ifdef __cplusplus
}
#endif
#endif
