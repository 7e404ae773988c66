"""Lines stay within 100 columns: those of Python, and those that name what a contract uses."""
from harness import files_below, text_of

MOST = 100
OF_PYTHON = ["bench", "examples", "tests", "tools"]
# (that of Debian's Python has Debian's packages)
OF_SCRIPTS = ("#!/usr/bin/env python3", "#!/usr/bin/python3")


def fault_of(lines):
    """Says which of these lines, by number, are too long, or None."""
    long = [str(number) for number, line in lines if len(line) > MOST]
    return f"over {MOST} columns: {', '.join(long)}" if long else None


def columns(_program):
    """Each file of Python, and the `ghost use` lines of each crate's source file."""
    for file in (it for folder in OF_PYTHON for it in files_below(folder, "")):
        text = text_of(file) if file.endswith(".py") or "." not in file else ""
        if file.endswith(".py") or text.startswith(OF_SCRIPTS):
            yield file, fault_of(enumerate(text.splitlines(), 1))
    for file in files_below("crates", ".rt"):
        lines = enumerate(text_of(file).splitlines(), 1)
        used = [it for it in lines if it[1].lstrip().startswith("ghost use ")]
        if used:
            yield file, fault_of(used)
