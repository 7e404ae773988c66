"""What of the Rattle kit is linked into a release, and the licenses that the kit has of it."""
from pathlib import Path

from release_manual import ROOT

# The crates that are released: both programs and the library.
RELEASED = ("fdb_audit_cli", "fdb_replay_cli", "fdb_c")
HEAD = """\
The programs and the library of this package have code of these libraries of the
Rattle kit in them:

{}

Below are the licenses that the kit has beside its libraries, each behind the
names of those that it is of. Of these it has none: {}.
"""


def own_crates():
    """The crates of the repository, each with those that it stands on."""
    lines = (ROOT / "crates.txt").read_text(encoding="utf-8").splitlines()
    parted = (it.partition("#")[0].partition(":") for it in lines)
    return {name.split()[0]: rest.split() for name, _, rest in parted if name.strip()}


def linked(kit):
    """The libraries of the kit that the released crates stand on, or these."""
    own, found, left = own_crates(), set(), [*RELEASED]
    while left:
        name = left.pop()
        if name in found:
            continue
        found.add(name)
        if name in own:
            left += [*own[name], "std"]
        else:
            lines = (kit / "rlibs" / f"{name}.rlib" / "format").read_text().splitlines()
            left += [it.partition(" ")[2] for it in lines if it.startswith("dep ")]
    return sorted(found - set(own))


def licenses(kit):
    """Names the libraries that are linked, with the licenses of those that have one."""
    names, texts = linked(kit), {}
    for name in names:
        for file in sorted((kit / "rattle" / name).glob("LICENSE*")):
            texts.setdefault(file.read_text(encoding="utf-8"), []).append(name)
    without = sorted(set(names) - {name for of in texts.values() for name in of})
    parts = [HEAD.format(" ".join(names), ", ".join(without))]
    for text, of in texts.items():
        parts.append(f"---- {', '.join(of)}\n\n{text.strip()}\n")
    return "\n".join(parts)
