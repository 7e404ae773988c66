/* What watches tell, worked out by hand in tests/follow_worked.txt. The last line is 'ok'. Random
 * logs are watched by tests/follow.py. */
#undef NDEBUG
#include "fdb_read_version.h"
#include <assert.h>
#include <stdio.h>
#include <stdlib.h>
#include <string.h>

#define STALE "{\"client\":\"a\",\"commit\":200,\"began\":10,\"ended\":14}\n" \
              "{\"client\":\"b\",\"read\":100,\"began\":15,\"ended\":16}\n"
/* and a line of another client, by which the end of the read is believed */
#define VOUCHED "{\"client\":\"a\",\"read\":200,\"began\":16,\"ended\":16}\n"
#define SAID(number) "audit fault: Order " number ": client \"b\" read 100, but 200 was known: " \
                     "line 1 (client \"a\", commit 200) had ended 1 before line " number " began\n"

#define NAME(text) (const uint8_t *)text, strlen(text)

static fdb_watch opened(fdb_watch_options options, const char *key, const char *shown) {
    fdb_watch watch = FDB_WATCH_NONE;
    assert(fdb_watch_new(&options, NAME(key), NAME(shown), &watch) == FDB_OK);
    return watch;
}

static void push(fdb_watch *watch, const char *bytes) {
    assert(fdb_watch_push(watch, (const uint8_t *)bytes, strlen(bytes)) == FDB_OK);
}

/* What was said last, in each room that is too small and then in one that is long enough. */
static void says(fdb_watch *watch, const char *text, const char *warnings) {
    uint64_t size = 77;
    for (size_t room = 0; room <= strlen(text); room++) {
        char *at = malloc(room + 1);
        assert(at);
        memset(at, '~', room + 1);
        uint8_t status = fdb_watch_text(watch, (uint8_t *)at, room, &size);
        assert(size == strlen(text) && status == (room < size ? FDB_ROOM : FDB_OK));
        assert(room < size ? at[0] == '~' : !memcmp(at, text, size));
        free(at);
    }
    uint8_t told[1000] = "";
    assert(fdb_watch_warnings(watch, told, 0, &size) == (*warnings ? FDB_ROOM : FDB_OK));
    assert(fdb_watch_warnings(watch, told, sizeof told, &size) == FDB_OK);
    assert(size >= strlen(warnings) && !memcmp(told, warnings, strlen(warnings)));
    assert(*warnings || size == 0);
}

/* It is told once, as soon as it is certain, however the text is cut. */
static void a_stale_read(void) {
    const char *log = STALE VOUCHED;
    for (size_t cut = 1; cut <= strlen(log); cut++) {
        fdb_watch watch = opened((fdb_watch_options){.behind = 0}, "", "");
        for (size_t at = 0; at < strlen(log); at += cut) {
            size_t length = at + cut <= strlen(log) ? cut : strlen(log) - at;
            assert(fdb_watch_push(&watch, (const uint8_t *)log + at, length) == FDB_OK);
        }
        assert(fdb_watch_tell(&watch, false) == FDB_OK);
        says(&watch, "", "");
        assert(fdb_watch_tell(&watch, true) == FDB_OK);
        says(&watch, SAID("2"), "");
        says(&watch, SAID("2"), "");
        assert(fdb_watch_tell(&watch, true) == FDB_OK);
        says(&watch, "", "");
        fdb_refused refused = {77, 77};
        assert(fdb_watch_end(&watch, &refused) == FDB_FAULT);
        assert(refused.line == 77 && refused.member == 77);
        says(&watch, "", "");
        fdb_watch_free(&watch);
        assert(watch.at == NULL);
    }
}

/* What is not certain waits, for lines that may come, or for the end. */
static void what_waits(void) {
    fdb_refused refused = {77, 77};
    fdb_watch watch = opened((fdb_watch_options){.behind = 5, .totals = true}, "", "");
    push(&watch, STALE);
    assert(fdb_watch_tell(&watch, true) == FDB_OK);
    says(&watch, "", "");
    push(&watch, "{\"client\":\"b\",\"report\":200,\"began\":16,\"ended\":null}");
    assert(fdb_watch_end(&watch, &refused) == FDB_FAULT);
    says(&watch,
         SAID("2") "audit total lines 3 reads 1 commits 1 asks 0 reports 1 refused 0 early 0\n"
         "audit total faults 1 Order 1 Wrong 0 NotAbove 0 Twice 0 Stray 0\n"
         "audit total client \"b\" faults 1 Order 1 Wrong 0 NotAbove 0 Twice 0 Stray 0\n", "");
    /* it is over, and says so; what was said last can still be had */
    assert(fdb_watch_push(&watch, (const uint8_t *)"{}\n", 3) == FDB_OVER);
    assert(fdb_watch_tell(&watch, true) == FDB_OVER);
    assert(fdb_watch_end(&watch, &refused) == FDB_OVER && refused.line == 77);
    uint64_t size;
    uint8_t text;
    assert(fdb_watch_text(&watch, &text, 0, &size) == FDB_ROOM && size > 200);
    fdb_watch_free(&watch);
}

/* The margin, the form and the keys are those that were asked for. */
static void what_is_asked(void) {
    fdb_refused refused = {77, 77};
    fdb_watch watch = opened((fdb_watch_options){.behind = 5, .margin = 1}, "", "");
    push(&watch, STALE);
    assert(fdb_watch_end(&watch, &refused) == FDB_OK);
    says(&watch, "audit ok lines 2 reads 1 commits 1 asks 0 reports 0 refused 0 early 0\n", "");
    fdb_watch_free(&watch);
    watch = opened((fdb_watch_options){.behind = 8, .totals = true, .json = true}, "k", "note,x");
    push(&watch, "{\"client\":\"a\",\"commit\":200,\"began\":10,\"ended\":14,\"k\":\"x\"}\n"
                 "{\"client\":\"b\",\"read\":100,\"began\":15,\"ended\":16,\"k\":\"y\"}\n");
    assert(fdb_watch_end(&watch, &refused) == FDB_OK && refused.line == 77);
    says(&watch,
         "{\"total\":{\"lines\":2,\"reads\":1,\"commits\":1,\"asks\":0,\"reports\":0,\"refused\":0,"
         "\"early\":0},\"arguments\":{\"follow\":8,\"margin\":0,\"by_key\":true,"
         "\"members\":[\"k\",\"note\",\"x\"]}}\n"
         "{\"faults\":0,\"Order\":0,\"Wrong\":0,\"NotAbove\":0,\"Twice\":0,\"Stray\":0}\n", "");
    fdb_watch_free(&watch);
    watch = opened((fdb_watch_options){0}, "", "note,k");
    push(&watch, "{\"client\":\"a\",\"commit\":200,\"began\":10,\"ended\":14,\"k\":[1]}\n"
                 "{\"client\":\"b\",\"read\":100,\"began\":15,\"ended\":16,\"note\":\"x\"}\n");
    assert(fdb_watch_end(&watch, &refused) == FDB_FAULT);
    says(&watch, "audit fault: Order 2: client \"b\" read 100 \"note\":\"x\", but 200 was known: "
                 "line 1 (client \"a\", commit 200 \"k\":[1]) had ended 1 before line 2 began\n", "");
    fdb_watch_free(&watch);
    fdb_watch_options options = {0};
    watch = (fdb_watch)FDB_WATCH_NONE;
    assert(fdb_watch_new(&options, NAME("\xff"), NAME(""), &watch) == FDB_BAD_MEMBER);
    assert(fdb_watch_new(&options, NAME(""), NAME("\xff"), &watch) == FDB_BAD_MEMBER);
    assert(watch.at == NULL);
}

/* Lines that are refused are left out, counted, and told; a fault goes first. */
static void left_out(void) {
    fdb_refused refused = {77, 77};
    fdb_watch watch = opened((fdb_watch_options){.behind = 5}, "", "");
    push(&watch, "{\"client\":\"a\",\"commit\":200,\"began\":10,\"ended\":14}\n{}\n");
    assert(fdb_watch_tell(&watch, true) == FDB_OK);
    says(&watch, "", "fdb_audit: logs refused: NoCall 2: ");
    assert(fdb_watch_end(&watch, &refused) == FDB_NO_CALL);
    assert(refused.line == 2 && refused.member == 0);
    says(&watch, "audit ok lines 1 reads 0 commits 1 asks 0 reports 0 refused 1 early 0\n", "");
    fdb_watch_free(&watch);
    refused = (fdb_refused){77, 77};
    watch = opened((fdb_watch_options){.behind = 5}, "", "");
    push(&watch, "{\"client\":\"a\",\"commit\":200,\"began\":10,\"ended\":14}\n"
                 "{\"client\":\"b\",\"read\":true,\"began\":10}\n"
                 "{\"client\":\"b\",\"read\":100,\"began\":15,\"ended\":16}\n{");
    assert(fdb_watch_end(&watch, &refused) == FDB_FAULT && refused.line == 77);
    says(&watch, SAID("3"), "fdb_audit: logs refused: BadMember 2 read: ");
    fdb_watch_free(&watch);
    watch = opened((fdb_watch_options){.behind = 5}, "k", "");
    push(&watch, "{\"client\":\"a\",\"commit\":200,\"began\":10,\"ended\":14,\"k\":[]}\n");
    assert(fdb_watch_end(&watch, &refused) == FDB_BAD_MEMBER);
    assert(refused.line == 1 && refused.member == FDB_KEY);
    fdb_watch_free(&watch);
    watch = opened((fdb_watch_options){.behind = 5}, "", "");
    assert(fdb_watch_end(&watch, &refused) == FDB_EMPTY && refused.line == 0);
    fdb_watch_free(&watch);
    fdb_watch_free(&watch);
    assert(watch.at == NULL);
}

#define READ(began, ended) "{\"client\":\"c\",\"read\":0,\"began\":" began ",\"ended\":" ended "}\n"
/* two clients that vouch for one another */
#define FIRST READ("90", "110") "{\"client\":\"d\",\"read\":0,\"began\":90,\"ended\":110}\n"
#define CAME(number, by, count) \
    "fdb_audit: early line " number ": it began " by " before what had been settled; " count \
    " so far: --follow is too small, or a clock is ahead\n"
#define COUNTS(lines, refused, early) \
    "lines " lines " reads " lines " commits 0 asks 0 reports 0 refused " refused " early " early

/* What comes, before and after it was settled up to 105, or 16; and then the end. */
static const struct {
    fdb_watch_options options;
    const char *before, *after;
    uint8_t status;
    uint64_t line;
    const char *text, *warnings;
} EARLY[] = {
    /* it began 5 before 105, and so it is judged all the same */
    {{.behind = 5}, FIRST, READ("100", "105"), FDB_UNJUDGED, 3,
     "audit early " COUNTS("3", "0", "1") " judged 1\n", CAME("3", "5", "1")},
    /* the last is told that came early, and not the last of all */
    {{.behind = 5}, FIRST, READ("99", "110") READ("100", "105") READ("105", "106"),
     FDB_UNJUDGED, 4, "audit early " COUNTS("5", "0", "2") " judged 1\n",
     CAME("3", "6", "1") CAME("4", "5", "2")},
    {{.behind = 5, .json = true}, FIRST, READ("100", "105"), FDB_UNJUDGED, 3, "",
     CAME("3", "5", "1")},
    {{.behind = 5, .totals = true, .json = true}, FIRST, READ("99", "105"),
     FDB_UNJUDGED, 3,
     "{\"total\":{\"lines\":3,\"reads\":3,\"commits\":0,\"asks\":0,\"reports\":0,\"refused\":0,"
     "\"early\":1,\"judged\":0},\"arguments\":{\"follow\":5,\"margin\":0,\"by_key\":false,"
     "\"members\":[]}}\n"
     "{\"faults\":0,\"Order\":0,\"Wrong\":0,\"NotAbove\":0,\"Twice\":0,\"Stray\":0}\n",
     CAME("3", "6", "1")},
    /* a line that is refused goes first */
    {{.behind = 5}, FIRST "{}\n", READ("100", "105"), FDB_NO_CALL, 3,
     "audit early " COUNTS("3", "1", "1") " judged 1\n", CAME("4", "5", "1")},
    /* and a fault before that */
    {{0}, STALE VOUCHED, READ("15", "16") "{}\n", FDB_FAULT, 77, "", CAME("4", "1", "1")},
    /* a line that begins there did not come early */
    {{.behind = 5}, FIRST, READ("105", "106"), FDB_OK, 77,
     "audit ok " COUNTS("3", "0", "0") "\n", ""},
    /* one clock that is ahead moves nothing, and is told of */
    {{.behind = 5}, FIRST, "{\"client\":\"e\",\"read\":0,\"began\":900,\"ended\":999}\n"
     READ("111", "112"), FDB_OK, 77, "audit ok " COUNTS("4", "0", "0") " ahead 1\n",
     "fdb_audit: a clock is ahead: above line 4 a line of another client ended 887 after it; 1 so "
     "far: it is not believed\n"},
};

/* Lines that began before what had been settled: not all was judged, and so it is not ok. */
static void came_early(void) {
    for (size_t at = 0; at < sizeof EARLY / sizeof *EARLY; at++) {
        fdb_refused refused = {77, 77};
        fdb_watch watch = opened(EARLY[at].options, "", "");
        push(&watch, EARLY[at].before);
        assert(fdb_watch_tell(&watch, true) == FDB_OK);
        push(&watch, EARLY[at].after);
        assert(fdb_watch_end(&watch, &refused) == EARLY[at].status);
        assert(refused.line == EARLY[at].line && refused.member == (refused.line == 77 ? 77 : 0));
        says(&watch, EARLY[at].text, EARLY[at].warnings);
        fdb_watch_free(&watch);
    }
}

/* What is kept, in each room that is too small and then in one that is long enough. */
static char *kept_by(fdb_watch *watch) {
    uint64_t size = 77;
    uint8_t status = FDB_ROOM;
    char *at = NULL;
    for (size_t room = 0; status == FDB_ROOM; room++) {
        free(at);
        at = malloc(room + 1);
        assert(at);
        memset(at, '~', room + 1);
        status = fdb_watch_keep(watch, (uint8_t *)at, room, &size);
        assert(status == (room < size ? FDB_ROOM : FDB_OK));
        assert(at[room < size ? 0 : size] == '~');
    }
    at[size] = '\0';
    return at;
}

static uint8_t restored(fdb_watch_options options, const char *key, const char *shown,
                        const char *kept, fdb_watch *watch, fdb_refused *refused) {
    *refused = (fdb_refused){77, 77};
    *watch = (fdb_watch)FDB_WATCH_NONE;
    uint8_t status =
        fdb_watch_restore(&options, NAME(key), NAME(shown), NAME(kept), watch, refused);
    assert((status == FDB_OK) == (watch->at != NULL));
    if (status == FDB_OK || status == FDB_MEMORY) assert(refused->line == 77);
    return status;
}

static void counted(fdb_watch *watch, fdb_watch_counted wanted) {
    fdb_watch_counted counts;
    memset(&counts, 0x77, sizeof counts);
    assert(fdb_watch_counts(watch, &counts) == FDB_OK);
    assert(!memcmp(&counts, &wanted, sizeof wanted));
}

/* What is kept of the stale read, of which nothing is settled. */
#define FIRST_AND(lines, clients) \
    "{\"client\":\"a\",\"commit\":200,\"began\":10,\"ended\":14,\"kept_line\":1,\"kept_lines\":" \
    lines ",\"kept_clients\":" clients ",\"kept_by\":\"--follow 5 --margin 0\"}\n"
#define SECOND_KEPT "{\"client\":\"b\",\"read\":100,\"began\":15,\"ended\":16,\"kept_line\":2," \
                    "\"kept_lines\":2}\n"

#define SHOWN "{\"client\":\"a\",\"commit\":2,\"began\":1,\"ended\":2,\"k\":\"z\",\"y\":[1]"

/* Kept wherever a line ends, and restored, it tells what one watch tells. */
static void goes_on(void) {
    static const char *const LINES[] = {
        "{\"client\":\"a\",\"commit\":200,\"began\":10,\"ended\":14}\n",
        "{\"client\":\"b\",\"read\":100,\"began\":15,\"ended\":16}\n",
        "{\"client\":\"a\",\"read\":200,\"began\":30,\"ended\":31}\n",
        "{\"client\":\"b\",\"read\":200,\"began\":30,\"ended\":31}\n",
        "{\"client\":\"a\",\"commit\":300,\"began\":40,\"ended\":41}\n",
    };
    fdb_watch_options options = {.behind = 5};
    fdb_refused refused;
    for (size_t cut = 0; cut <= 5; cut++) {
        fdb_watch watch = opened(options, "", "");
        bool is_told = false;
        for (size_t line = 0; line < 5; line++) {
            if (line == cut) {
                char *kept = kept_by(&watch);
                fdb_watch_free(&watch);
                assert(restored(options, "", "", kept, &watch, &refused) == FDB_OK);
                says(&watch, "", "");
                free(kept);
            }
            push(&watch, LINES[line]);
            assert(fdb_watch_tell(&watch, true) == FDB_OK);
            /* the fourth line says that the third's clock is right */
            says(&watch, line == 3 ? SAID("2") : "", "");
            is_told |= line == 3;
        }
        assert(is_told);
        /* (what an earlier watch has told, a later one does not know of) */
        assert(fdb_watch_end(&watch, &refused) == (cut == 4 ? FDB_OK : FDB_FAULT));
        fdb_watch_free(&watch);
    }
}

/* What is kept is a text of its own, and is made anew once more has come. */
static void what_is_kept(void) {
    fdb_watch_options options = {.behind = 5};
    fdb_refused refused;
    fdb_watch watch = opened(options, "", "");
    uint64_t size = 77;
    assert(fdb_watch_keep(&watch, (uint8_t *)&size, 0, &size) == FDB_OK && size == 0);
    push(&watch, "{\"client\":\"a\",\"commit\":200,\"began\":10,\"ended\":14}\n{\"client\":");
    char *kept = kept_by(&watch);
    assert(!strcmp(kept, FIRST_AND("1", "1")));
    free(kept);
    uint8_t none = '~';
    assert(fdb_watch_keep(&watch, &none, 1, &size) == FDB_ROOM && none == '~');
    assert(size == strlen(FIRST_AND("1", "1")));
    push(&watch, "\"b\",\"read\":100,\"began\":15,\"ended\":16}\n");
    assert(fdb_watch_keep(&watch, &none, 1, &size) == FDB_ROOM);
    assert(size == strlen(FIRST_AND("2", "2") SECOND_KEPT));
    /* the room is there, and the text is held */
    kept = kept_by(&watch);
    assert(!strcmp(kept, FIRST_AND("2", "2") SECOND_KEPT));
    counted(&watch, (fdb_watch_counted){.lines = 2, .reads = 1, .commits = 1, .open = 2, .kept = 2,
                                        .newest_end = 16});
    assert(fdb_watch_end(&watch, &refused) == FDB_FAULT);
    says(&watch, SAID("2"), "");
    fdb_watch_counted counts = {.lines = 77};
    assert(fdb_watch_keep(&watch, &none, 1, &size) == FDB_OVER && none == '~' && size != 77);
    assert(fdb_watch_counts(&watch, &counts) == FDB_OVER && counts.lines == 77);
    fdb_watch_free(&watch);
    /* lines that were kept are kept on, and not counted */
    assert(restored(options, "", "", kept, &watch, &refused) == FDB_OK);
    char *again = kept_by(&watch);
    assert(!strcmp(again, kept));
    free(again);
    fdb_watch_counted few;
    assert(fdb_watch_counts(&watch, &few) == FDB_OK);
    assert(few.lines == 0 && few.open == 2 && few.kept == 2 && few.settled_to == 0);
    assert(fdb_watch_end(&watch, &refused) == FDB_FAULT);
    says(&watch, SAID("2"), "");
    free(kept);
    fdb_watch_free(&watch);
}

/* A text that is not what such a watch keeps is refused, by the line. */
static void what_is_not_kept(void) {
    fdb_watch_options options = {.behind = 5};
    fdb_refused refused;
    fdb_watch watch;
    const struct {
        fdb_watch_options options;
        const char *key, *shown, *kept;
        uint8_t status;
        uint64_t line;
        uint8_t member;
    } REFUSED[] = {
        {{.behind = 6}, "", "", FIRST_AND("1", "1"), FDB_NOT_KEPT, 1, 0},
        {{.behind = 5, .margin = 1}, "", "", FIRST_AND("1", "1"), FDB_NOT_KEPT, 1, 0},
        {options, "k", "", FIRST_AND("1", "1"), FDB_NOT_KEPT, 1, 0},
        {options, "", "k", FIRST_AND("1", "1"), FDB_NOT_KEPT, 1, 0},
        {options, "", "", SECOND_KEPT, FDB_NOT_KEPT, 1, 0},
        {options, "", "", FIRST_AND("2", "2") SECOND_KEPT SECOND_KEPT, FDB_NOT_KEPT, 3, 0},
        {options, "", "", FIRST_AND("2", "2") STALE, FDB_NOT_KEPT, 2, 0},
        {options, "", "", FIRST_AND("2", "2") "{\"client\":\"b\",\"re", FDB_NOT_JSON, 2, 0},
        {options, "", "", "nil\n", FDB_NOT_JSON, 1, 0},
        {options, "", "", "{}\n", FDB_NO_CALL, 1, 0},
        {options, "", "", "{\"client\":[]}\n", FDB_BAD_MEMBER, 1, FDB_CLIENT},
        {options, "\xff", "", FIRST_AND("1", "1"), FDB_BAD_MEMBER, 0, 0},
        {options, "", "\xff", FIRST_AND("1", "1"), FDB_BAD_MEMBER, 0, 0},
    };
    for (size_t at = 0; at < sizeof REFUSED / sizeof *REFUSED; at++) {
        uint8_t status = restored(REFUSED[at].options, REFUSED[at].key, REFUSED[at].shown,
                                  REFUSED[at].kept, &watch, &refused);
        assert(status == REFUSED[at].status);
        assert(refused.line == REFUSED[at].line && refused.member == REFUSED[at].member);
    }
    /* but what is printed may be another */
    fdb_watch_options others = {.behind = 5, .totals = true, .json = true};
    assert(restored(others, "", "", FIRST_AND("1", "1"), &watch, &refused) == FDB_OK);
    fdb_watch_free(&watch);
    /* and a text without a line is of a watch that keeps none */
    assert(restored(options, "", "", "", &watch, &refused) == FDB_OK);
    assert(fdb_watch_end(&watch, &refused) == FDB_EMPTY && refused.line == 0);
    fdb_watch_free(&watch);
    /* what is kept by a key, with what is shown */
    watch = opened((fdb_watch_options){.behind = 9, .margin = 2}, "k", "x,y");
    push(&watch, SHOWN "}\n");
    char *kept = kept_by(&watch);
    assert(!strcmp(kept, SHOWN ",\"kept_line\":1,\"kept_lines\":1,\"kept_clients\":1,\"kept_by\":"
                         "\"--follow 9 --margin 2 --key \\\"k\\\" --show \\\"x\\\" "
                         "--show \\\"y\\\"\"}\n"));
    fdb_watch_free(&watch);
    others = (fdb_watch_options){.behind = 9, .margin = 2};
    assert(restored(others, "k", "x,y", kept, &watch, &refused) == FDB_OK);
    fdb_watch_free(&watch);
    free(kept);
}

int main(void) {
    a_stale_read();
    what_waits();
    what_is_asked();
    left_out();
    came_early();
    goes_on();
    what_is_kept();
    what_is_not_kept();
    puts("ok");
    return 0;
}
