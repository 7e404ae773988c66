#include "fdb_read_version.h"
#include <inttypes.h>
#include <stdio.h>

int main(void) {
    fdb_chain chain = FDB_CHAIN_NONE;
    fdb_ask ask = {.proxy = 0, .num = 1, .processed = 0, .at = 5};
    fdb_answer answer;
    if (fdb_chain_new(100, 200, 2, &chain) || fdb_chain_ask(&chain, &ask, &answer)) return 1;
    printf("version %" PRIu64 " after %" PRIu64 "\n", answer.version, answer.prev);
    ask.num = 7;
    if (fdb_chain_ask(&chain, &ask, &answer) == FDB_EARLY)
        printf("7 is early: %" PRIu64 " is next\n", answer.num);
    fdb_chain_free(&chain);
    return 0;
}
