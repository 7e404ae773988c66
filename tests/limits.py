"""The limits that documents name are those of the code."""
import re

from harness import files_below, text_of

CONSTANT = re.compile(r"^pub const (MAX_\w+|IDLE_BURST|RATE_WINDOW): \w+ = ([\d_]+);", re.MULTILINE)
SCRIPT, LOG, STATUSES = "docs/SCRIPT.md", "docs/LOG.md", "docs/STATUSES.md"
README, HEADER = "README.md", "include/fdb_read_version.h"
# What a document says of limits, with the names of the constants in the code.
SAID = (
    (SCRIPT, "at most {MAX_SCRIPT_BYTES:,} bytes"),
    (STATUSES, "more than {MAX_SCRIPT_BYTES:,} bytes come"),
    (SCRIPT, "a whole number, at most {MAX_VERSION}: the first"),
    (SCRIPT, "would be above {MAX_VERSION}"),
    (SCRIPT, "the version is above {MAX_VERSION}"),
    (SCRIPT, "a whole number from 1 to {MAX_CLIENTS}"),
    (SCRIPT, "at most {MAX_ROUNDS:,} rounds, each a list of commands; at most {MAX_COMMANDS:,}"
              " commands in all"),
    (SCRIPT, "1 to {MAX_RATE:,} for `normal`, 0 to {MAX_RATE:,} for `batch`"),
    (SCRIPT, "may wait in its queue: 1 to {MAX_ROOM:,}"),
    (SCRIPT, "its windows: 1 to {MAX_ELAPSED:,}"),
    (SCRIPT, "a list of at most {MAX_THROTTLES:,} throttles"),
    (SCRIPT, "A tag is a text of 1 to {MAX_TAG} characters"),
    (SCRIPT, "`tags`: none, and at most {MAX_TAGS};"),
    (SCRIPT, "at least 1 and at most {MAX_STEP:,}"),
    (SCRIPT, "more than {MAX_COUNT:,}, or at batch priority for more than the normal limit plus"
              " {IDLE_BURST}"),
    ("docs/DECISIONS.md", "would be above {MAX_VERSION:,} is"),
    (README, "at most {MAX_SCRIPT_BYTES:,} bytes, {MAX_ROUNDS:,} rounds, {MAX_COMMANDS:,} com"),
    (README, "and {MAX_THROTTLES:,} throttles; 1 to {MAX_CLIENTS} clients"),
    (README, "for a read at most {MAX_TAGS} tags, of at most {MAX_TAG} bytes"),
    (README, "a request for 1 to {MAX_COUNT:,} transactions"),
    (README, "A log for `fdb_audit`: at most {MAX_LINES:,} lines, each of at most"
             " {MAX_LINE_BYTES:,} bytes"),
    (LOG, "the line has more than {MAX_LINE_BYTES:,} bytes"),
    (LOG, "there are {MAX_LINES:,} lines above"),
    (README, "0 to {MAX_VERSION:,}."),
    (README, "A `RecentChain`: 1 to {MAX_PROXIES} commit proxies."),
    (README, "A `LiveRecord` is opened for 1 to {MAX_REPORTERS} reporters"),
    (README, "room for 1 to {MAX_ROOM:,} requests; a normal limit of 1 to {MAX_RATE:,}"),
    (README, "a batch limit of 0 to {MAX_RATE:,} transactions"),
    (README, "1 to {MAX_ELAPSED:,} microseconds after the last one; at most {MAX_STARTED:,} req"),
    (HEADER, "#define FDB_TRANSACTION {RATE_WINDOW} "),
    (HEADER, "#define FDB_MOST_STARTED {MAX_STARTED} "),
    (HEADER, "least and {MAX_STEP:,} at most"),
    (HEADER, "sum <= {MAX_BURST:,}"),
    (HEADER, "at most {MAX_BURST:,} transactions, or {IDLE_BURST} where"),
    (HEADER, "(1 to {MAX_ELAPSED:,}) after the last one"),
    (HEADER, "of 0 to {MAX_TAG} bytes"),
    (HEADER, "at most normal + {IDLE_BURST} */"),
)


def constants():
    """The limits by name, each with the values that it has in the crates."""
    found = {}
    for file in files_below("crates", ".rt"):
        for limit, value in CONSTANT.findall(text_of(file)):
            found.setdefault(limit, set()).add(int(value.replace("_", "")))
    return found


def limits(_program):
    """Where a document names a limit, it is that of the code, which has one value for it."""
    found = constants()
    several = [name for name, values in found.items() if len(values) > 1]
    yield "each limit has one value", f"not {', '.join(several)}" if several else None
    by_name = {name: min(values) for name, values in found.items()}
    for document, form in SAID:
        said = form.format(**by_name)
        yield f"{document}: {said}", None if said in text_of(document) else "it does not say so"
