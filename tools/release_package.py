"""Makes the Debian package: a tree of what is installed, and dpkg's tools over it."""
import gzip
import hashlib
import io
import os
import shutil
import subprocess
import sys
from datetime import datetime, timezone
from email.utils import format_datetime
from pathlib import Path

import release_completion
import release_licenses
import release_manual
from release_manual import INSTALLED, ROOT, installed

PACKAGE, LIBRARY = "fdb-read-version", "libfdb_read_version"
PROGRAMS = ("fdb_audit", "fdb_replay")
# The tools in Python, by their files: what they are called where they are installed.
TOOLS = {own: name for own, name in INSTALLED.items() if own.startswith("tools/")}
BUILT = {name: f"crates/{name}_cli/out/{name}_cli" for name in PROGRAMS}
OUT = "crates/fdb_c/out"
SHARED, ARCHIVES = f"{OUT}/{LIBRARY}.so.0", [f"{OUT}/{LIBRARY}.a", f"{OUT}/liblibc_c.a"]
LIBRARIES, SHARE = "usr/lib/x86_64-linux-gnu", f"usr/share/{PACKAGE}"
DOCUMENTS = f"usr/share/doc/{PACKAGE}"
# What makes a release; a cargo that is older packs no crate that needs another of its workspace.
NEEDED = ("git", "cargo", "rt", "ar", "strip", "dpkg-deb", "dpkg-shlibdeps", "dpkg-gencontrol")
OLDEST_CARGO = (1, 90)
PYTHON, DEBIAN_PYTHON = "#!/usr/bin/env python3\n", "#!/usr/bin/python3\n"


def said(*words, **how):
    """What a command prints, which must succeed."""
    pipes = {"stdout": subprocess.PIPE, "stderr": subprocess.PIPE}
    return subprocess.run(words, check=True, text=True, **pipes, **how).stdout


def lacking():
    """What a release wants that is not here, or None."""
    missing = next((it for it in NEEDED if not shutil.which(it)), None)
    if missing:
        return f"there is no {missing} on the PATH"
    version = said("cargo", "--version").split()[1]
    is_old = tuple(map(int, version.split(".")[:2])) < OLDEST_CARGO
    wanted = ".".join(map(str, OLDEST_CARGO))
    return f"cargo is {version}, and older than {wanted}" if is_old else None


def in_utc(moment):
    return datetime.fromtimestamp(moment, timezone.utc)


class Tree:
    """What is installed, in a folder of its own."""

    def __init__(self, top):
        self.top = Path(top)

    def at(self, path):
        place = self.top / path
        place.parent.mkdir(parents=True, exist_ok=True)
        return place

    def write(self, path, content, mode=0o644):
        place = self.at(path)
        place.write_bytes(content if isinstance(content, bytes) else content.encode())
        place.chmod(mode)

    def link(self, path, to):
        self.at(path).symlink_to(to)

    def files(self):
        found = sorted((self.top / "usr").rglob("*"))
        return [it for it in found if it.is_file() and not it.is_symlink()]

    def settle(self, moment):
        """Gives all the time of the commit, and folders the rights that they are installed with."""
        for it in sorted(self.top.rglob("*"), reverse=True):
            if it.is_dir() and not it.is_symlink():
                it.chmod(0o755)
            os.utime(it, (moment, moment), follow_symlinks=False)
        self.top.chmod(0o755)
        os.utime(self.top, (moment, moment))


def packed(text):
    """A text as gzip writes it, without a time."""
    made = io.BytesIO()
    with gzip.GzipFile("", "wb", 9, made, mtime=0) as file:
        file.write(text.encode())
    return made.getvalue()


def stripped(file, to, *words):
    """A built file without what only a debugger reads."""
    said("strip", "--enable-deterministic-archives", *words, "-o", str(to), str(ROOT / file))
    return to


def add_programs(tree, version, moment):
    """The programs and the tools, with their manual pages and completions."""
    date, helps = in_utc(moment).date().isoformat(), {}
    for name, file in BUILT.items():
        stripped(file, tree.at(f"usr/bin/{name}")).chmod(0o755)
        help = helps[name] = said(str(ROOT / file), "--help")
        shells = "usr/share/bash-completion/completions", "usr/share/zsh/vendor-completions"
        tree.write(f"{shells[0]}/{name}", release_completion.bash(name, help))
        tree.write(f"{shells[1]}/_{name}", release_completion.zsh(name, help))
    pages = [(f"{name}.1", {"help": helps[name]}) for name in PROGRAMS]
    pages.append(("fdb_audit_log.5", {}))
    for own, name in TOOLS.items():
        tree.link(f"usr/bin/{name}", f"../share/{PACKAGE}/{Path(own).name}")
        help = said(sys.executable, str(ROOT / own), "--help", env={**os.environ, "COLUMNS": "80"})
        pages.append((f"{name}.1", {"tool": own, "help": help}))
    for page, how in pages:
        text = release_manual.page(page, version, date, **how)
        tree.write(f"usr/share/man/man{page[-1]}/{page}.gz", packed(text))
    for file in sorted((ROOT / "tools").iterdir()):
        own = f"tools/{file.name}"
        is_part = file.suffix in (".py", ".css", ".js") and not file.name.startswith("release")
        if own in TOOLS or is_part:
            text = installed(file.read_text(encoding="utf-8"))
            text = text.replace(PYTHON, DEBIAN_PYTHON, 1) if text.startswith(PYTHON) else text
            tree.write(f"{SHARE}/{file.name}", text, 0o755 if own in TOOLS else 0o644)


def add_library(tree, version, room):
    """The library, to be loaded and to be linked, with its header and what pkg-config reads."""
    name = Path(SHARED).name
    stripped(SHARED, tree.at(f"{LIBRARIES}/{name}"), "--strip-unneeded").chmod(0o644)
    tree.link(f"{LIBRARIES}/{LIBRARY}.so", name)
    # One archive has both, so that it alone is linked.
    names = [shutil.copy(ROOT / it, room) and Path(it).name for it in ARCHIVES]
    lines = ["CREATE whole.a", *(f"ADDLIB {it}" for it in names), "SAVE", "END", ""]
    said("ar", "-M", input="\n".join(lines), cwd=room)
    whole = Path(room) / "whole.a"
    stripped(whole, tree.at(f"{LIBRARIES}/{LIBRARY}.a"), "--strip-debug").chmod(0o644)
    pc = (ROOT / "debian" / f"{PACKAGE}.pc").read_text(encoding="utf-8")
    tree.write(f"{LIBRARIES}/pkgconfig/{PACKAGE}.pc", pc.replace("@VERSION@", version))
    header = "include/fdb_read_version.h"
    tree.write(f"usr/{header}", (ROOT / header).read_bytes())


def add_documents(tree, changelog):
    """README.md, docs/ and examples/ as they are, and what Debian wants: licenses and changelog."""
    names = said("git", "-C", str(ROOT), "ls-files", "-z", "README.md", "docs", "examples")
    for name in names.rstrip("\0").split("\0"):
        file = ROOT / name
        mode = 0o755 if os.access(file, os.X_OK) else 0o644
        tree.write(f"{DOCUMENTS}/{name}", file.read_bytes(), mode)
    for name, path in (("copyright", f"{DOCUMENTS}/copyright"),
                       ("lintian-overrides", f"usr/share/lintian/overrides/{PACKAGE}")):
        tree.write(path, (ROOT / "debian" / name).read_bytes())
    tree.write(f"{DOCUMENTS}/changelog.gz", packed(changelog))
    linked = release_licenses.licenses(Path(said("rt", "doc").strip()).parent)
    tree.write(f"{DOCUMENTS}/linked-libraries.gz", packed(linked))


def changelog_of(version, gate, moment):
    """What Debian's tools take the version from; it names the commit."""
    control = (ROOT / "debian" / "control").read_text(encoding="utf-8")
    maintainer = next(it for it in control.splitlines() if it.startswith("Maintainer: "))
    return (f"{PACKAGE} ({version}) unstable; urgency=medium\n\n"
            f"  * Made of commit {gate['commit']},\n"
            f"    which {gate['kit']} has proved.\n\n"
            f" -- {maintainer.partition(' ')[2]}  {format_datetime(in_utc(moment))}\n")


def add_control(tree, changelog, room):
    """What dpkg reads of the package: its needs are those that dpkg-shlibdeps finds."""
    own = Path(room) / "debian"
    shutil.copytree(ROOT / "debian", own)
    (own / "changelog").write_text(changelog, encoding="utf-8")
    binaries = [*(f"usr/bin/{it}" for it in PROGRAMS), f"{LIBRARIES}/{Path(SHARED).name}"]
    words = [f"-e{tree.top / it}" for it in binaries]
    (tree.top / "DEBIAN").mkdir()
    said("dpkg-shlibdeps", "-Tsubstvars", *words, cwd=room)
    said("dpkg-gencontrol", f"-p{PACKAGE}", f"-P{tree.top}", "-Tsubstvars", "-ffiles", cwd=room)
    for name in ("triggers", "shlibs"):
        tree.write(f"DEBIAN/{name}", (own / name).read_bytes())
    sums = [f"{hashlib.md5(it.read_bytes()).hexdigest()}  {it.relative_to(tree.top)}\n"
            for it in tree.files()]
    tree.write("DEBIAN/md5sums", "".join(sums))
    (tree.top / "DEBIAN" / "control").chmod(0o644)


def make_package(version, gate, moment, room, folder):
    """Makes the package in a folder, and returns its name."""
    tree, changelog = Tree(Path(room) / "tree"), changelog_of(version, gate, moment)
    add_programs(tree, version, moment)
    add_library(tree, version, room)
    add_documents(tree, changelog)
    add_control(tree, changelog, room)
    tree.settle(moment)
    name = f"{PACKAGE}_{version}_amd64.deb"
    env = {**os.environ, "SOURCE_DATE_EPOCH": str(moment), "DPKG_DEB_THREADS_MAX": "1"}
    words = ["dpkg-deb", "--root-owner-group", "-Zxz", "--build"]
    said(*words, str(tree.top), str(Path(folder) / name), env=env)
    return name
