"""Writes lines for fdb_audit that a tool makes of another system's files, and says of how many."""
import collections
import json
import sys

KINDS = ("read", "commit")


class Refused(Exception):
    """Says why a file is refused: where, and what is wrong there."""


def write_lines(tool, names, made_of, passed_over):
    """Writes the lines that are made of each of these files, or else of standard input.

    `made_of` gets an open file and a counter for what it passes over. The status is returned.
    """
    counts = collections.Counter()
    for name in names or ["-"]:
        try:
            with open(0 if name == "-" else name, encoding="utf-8", errors="replace") as file:
                for line in made_of(file, counts):
                    counts[next(it for it in KINDS if it in line)] += 1
                    sys.stdout.write(json.dumps(line, separators=(",", ":")) + "\n")
        except OSError as fault:
            sys.exit(f"{tool}: {name}: {fault.strerror}")
        except Refused as why:
            sys.exit(f"{tool}: {why}")
    print(f"{tool}: {counts['read']} reads, {counts['commit']} commits; passed over: "
          + ", ".join(f"{counts[it]} {it}" for it in passed_over), file=sys.stderr)
    return 0 if counts["read"] + counts["commit"] else 2
