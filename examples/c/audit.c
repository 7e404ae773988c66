#include "fdb_read_version.h"
#include <inttypes.h>
#include <stdio.h>

#define CALL .has_client = true, .has_times = true, .has_ended = true

int main(void) {
    fdb_call calls[] = {
        {.kind = FDB_COMMIT, .version = 200, .client = 1, .began = 10, .ended = 14, CALL},
        {.kind = FDB_READ, .version = 100, .client = 2, .began = 15, .ended = 16, CALL},
    };
    fdb_audit_options options = {.margin = 0};
    fdb_fault fault;
    fdb_refused refused;
    uint64_t size;
    uint8_t status = fdb_audit_calls_faults(calls, 2, &options, &fault, 1, &size, &refused);
    if (status == FDB_FAULT && fault.kind == FDB_FAULT_ORDER && fault.means == FDB_MEANS_ENDED)
        printf("call %" PRIu32 " is stale: %" PRIu64 " was known, as call %" PRIu32 " had ended\n",
               fault.place, fault.known, fault.by);
    return 0;
}
