"""Packages that tools/release makes of a copy of the repository with what was built, and a record.

They are made once for all groups, and once more to compare. Where a tool is not there that makes or
looks at one of them, the group says so and leaves that out.
"""
import atexit
import fnmatch
import functools
import os
import re
import shutil
import tempfile

import gate_record
from documents import CODE, rows_of
from gate_record import BUILT, FILES, SHARED
from harness import MANY_SECONDS, ROOT, read, run, text_of
from release_package import lacking

NEEDED = [f"{ROOT}/{it}" for it in (*BUILT.values(), SHARED)]
KIT, ENDED = "a-kit logic 0123456789abcdef", ["1 passed, 0 failed"]
WHO = {"NAME": "nobody", "EMAIL": "nobody@example.org", "DATE": "2026-01-02T03:04:05Z"}
OF_GIT = {
    **{f"GIT_{role}_{it}": value for role in ("AUTHOR", "COMMITTER") for it, value in WHO.items()},
    "GIT_CONFIG_GLOBAL": os.devnull, "GIT_CONFIG_NOSYSTEM": "1",
}
# What a release must not depend on.
ELSEWHERE = {"TZ": "Asia/Kathmandu", "LANG": "C", "LC_ALL": "C", "COLUMNS": "40",
             "SOURCE_DATE_EPOCH": "1"}


def missing():
    """What is missing for a release here, or None; it is said."""
    found = lacking()
    if not found and run(["git", "-C", ROOT, "rev-parse"]).status:
        found = "this is no repository of git"
    if found:
        print(f"({found}: left out) ", end="")
    return found


def here(tool):
    """Whether a tool is there by which a package is looked at; it is said where it is not."""
    if not shutil.which(tool):
        print(f"(there is no {tool}: left out) ", end="")
    return bool(shutil.which(tool))


@functools.lru_cache(maxsize=None)
def room():
    """A folder for all that is made here. It goes where the tests end."""
    made = tempfile.TemporaryDirectory(prefix="release-")
    atexit.register(made.cleanup)
    return made.name


def git(folder, *words):
    env = {**os.environ, **OF_GIT}
    return run(["git", "-C", folder, *words], seconds=MANY_SECONDS, env=env)


def copied(name):
    """A copy of what a release is made of, as a repository that has one commit, and its record."""
    folder = f"{room()}/{name}"
    listed = run(["git", "-C", ROOT, "ls-files", "-zco", "--exclude-standard"]).out.decode()
    own = [it for it in listed.split("\0") if not it.startswith(("crates/", "tests/"))]
    for it in (*filter(None, own), *FILES):
        if os.path.exists(f"{ROOT}/{it}"):
            os.makedirs(os.path.dirname(f"{folder}/{it}"), exist_ok=True)
            shutil.copy(f"{ROOT}/{it}", f"{folder}/{it}")
    for words in (["init", "--quiet"], ["add", "--all"], ["commit", "--quiet", "-mall"]):
        git(folder, *words)
    os.makedirs(f"{folder}/out")
    write_record(folder)
    return folder


def write_record(folder, commit=None):
    commit = commit or git(folder, "rev-parse", "HEAD").out.decode().strip()
    with open(f"{folder}/out/gate", "w", encoding="utf-8") as it:
        it.write(gate_record.record(commit, KIT, ENDED, {"fdb_lines": 1}, folder))


def released(folder, **how):
    env = {**os.environ, **OF_GIT, **how.pop("env", {})}
    return run([f"{folder}/tools/release"], seconds=MANY_SECONDS, env=env, **how)


@functools.lru_cache(maxsize=None)
def made():
    """The folder of a release, and how making it ended."""
    folder = copied("one")
    return f"{folder}/out/release", released(folder)


def file_of(ending):
    """The file of the release whose name ends so."""
    folder, _ = made()
    return next(f"{folder}/{it}" for it in sorted(os.listdir(folder)) if it.endswith(ending))


# ---- groups


def refused(_program):
    """Without a green gate of this very commit and of these files there is no release."""
    if missing():
        yield "no release", None
        return
    folder = copied("refused")
    record, program = f"{folder}/out/gate", f"{folder}/{FILES[0]}"

    def undone(change):
        change()
        ran = released(folder)
        is_said = ran.err.startswith(b"release: ") and b".ci/run" in ran.err
        left = os.path.exists(f"{folder}/out/release")
        return None if ran.status == 1 and is_said and not left else f"{ran}"

    yield "no record", undone(lambda: os.remove(record))
    yield "a record of another commit", undone(lambda: write_record(folder, "0" * 40))
    write_record(folder)
    yield "another program", undone(lambda: append(program, b"\n"))
    shutil.copy(f"{ROOT}/{FILES[0]}", program)
    yield "no program", undone(lambda: os.remove(program))
    shutil.copy(f"{ROOT}/{FILES[0]}", program)
    yield "a file that is new", undone(lambda: append(f"{folder}/tools/new", b"\n"))
    os.remove(f"{folder}/tools/new")
    yield "a file that changed", undone(lambda: append(f"{folder}/VERSION", b"\n"))


def append(file, more):
    with open(file, "ab") as it:
        it.write(more)


def same(_program):
    """A release has its files, and is the same from another folder, by another user's settings."""
    if missing():
        yield "no release", None
        return
    folder, ran = made()
    names = sorted(os.listdir(folder)) if os.path.isdir(folder) else []
    yield "it is made", None if ran.status == 0 and names else f"{ran}"
    version = read(f"{ROOT}/VERSION").decode().strip()
    wanted = {f"fdb-read-version_{version}_amd64.deb", f"fdb_read_version-{version}.crate",
              f"fdb_read_version-sys-{version}.crate", "PROVED", "SHA256SUMS"}
    others = {*names} ^ wanted
    is_wheel = len(others) == 1 and min(others).startswith(f"fdb_read_version-{version}-py3-none-")
    yield "its files", None if is_wheel else f"{names}"
    yield from as_documented(names)
    other = copied("two, and further down/it")
    before = os.umask(0o077)
    try:
        again = released(other, env=ELSEWHERE)
    finally:
        os.umask(before)
    yield "it is made again", None if again.status == 0 else f"{again}"
    for name in names:
        path = f"{other}/out/release/{name}"
        is_same = os.path.exists(path) and read(f"{folder}/{name}") == read(path)
        yield f"{name}, made again", None if is_same else "it has other bytes"


def as_documented(names):
    """The documents name each file of a release, and none besides."""
    rows = rows_of("docs/ARCHITECTURE.md", "File | Use")
    patterns = [it for row in rows for it in CODE.findall(row[0])]
    for pattern in (*patterns, *re.findall(r"apt install \./([^`]*)`", text_of("README.md"))):
        fault = None if fnmatch.filter(names, pattern) else "there is no such file"
        yield f"{pattern} in documents", fault
    others = [it for it in names if not any(fnmatch.fnmatch(it, one) for one in patterns)]
    yield "files that no document names", f"{others}" if others else None


def summed(_program):
    """PROVED is the gate's record, and no file of a release may change."""
    if missing():
        yield "no release", None
        return
    folder, _ = made()
    record = read(f"{os.path.dirname(folder)}/gate")
    yield "PROVED", None if read(f"{folder}/PROVED") == record else "it is not the gate's record"
    check = ["sha256sum", "--check", "--strict", "--quiet", "SHA256SUMS"]
    ran = run(check, cwd=folder)
    yield "all sums", None if ran.status == 0 else f"{ran}"
    names = {line.split()[1] for line in read(f"{folder}/SHA256SUMS").decode().splitlines()}
    others = {*os.listdir(folder)} ^ {*names, "SHA256SUMS"}
    yield "each file has a sum", f"{others}" if others else None
    with tempfile.TemporaryDirectory() as changed:
        shutil.copytree(folder, changed, dirs_exist_ok=True)
        for name in sorted(names):
            whole = read(f"{changed}/{name}")
            with open(f"{changed}/{name}", "r+b") as it:
                it.seek(len(whole) // 2)
                it.write(bytes([whole[len(whole) // 2] ^ 1]))
            ran = run(check, cwd=changed)
            is_told = ran.status == 1 and f"{name}: FAILED".encode() in ran.out
            yield f"{name} with another bit", None if is_told else f"{ran}"
            with open(f"{changed}/{name}", "wb") as it:
                it.write(whole)
