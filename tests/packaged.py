"""The Debian package, unpacked and installed in folders of its own, on a PATH that has no rt.

There the examples of the documents run, and programs of C, Python and Rust stand on its library.
"""
import contextlib
import functools
import gzip
import os
import re
import shutil
import signal
import subprocess
import sys
import tarfile
import threading

import bindings
from audit_logs import LOGS, ended_with
from documents import BLOCK
from harness import MANY_SECONDS, ROOT, SECONDS, Ran, done, fault_of, read, run, text_of
from released import file_of, here, made, missing, room

sys.path.insert(0, f"{ROOT}/tools")
from release_manual import installed, section
from release_package import DOCUMENTS, LIBRARIES, LIBRARY, PACKAGE, SHARE

# The commands of README.md's section that have no block of their own, which `of_readme` runs.
OWN_LOGS = "Logs of your own"
DRAWS = "./fdb_audit LOG --json > said; tools/picture LOG said > log.html"
WATCHES = "tail -F calls.jsonl | ./fdb_audit --follow 5000000 --json"
TRIED = {DRAWS, WATCHES, "--margin N", "--key MEMBER", "--keep FILE"}
# A call after which a watch of README.md's log knows that nothing before it may come.
# (of two clients, since a watch believes no clock alone)
LATER = (b'{"client":"a","commit":300,"began":90000000,"ended":90000001}\n'
         b'{"client":"b","read":300,"began":90000002,"ended":90000003}\n')
# What dpkg wants of a folder before it installs into it. (what the package needs is not there)
STATUS = ("var/lib/dpkg/info", "var/lib/dpkg/updates", "var/lib/dpkg/triggers", "tmp")
FORCED = ["--force-depends", "--force-not-root", "--force-script-chrootless", "--force-bad-path"]
LIBRARY_IS_MISSING = b"there is no libfdb_read_version: make it with tools/bindings, install"
DOCTESTS = "import doctest, sys; sys.exit(doctest.testfile(sys.argv[1], False).failed)"
CARGO = """\
[package]
name = "user"
version = "0.1.0"
edition = "2021"
[dependencies]
fdb_read_version = {{ path = "../fdb_read_version-{0}" }}
[patch.crates-io]
fdb_read_version-sys = {{ path = "../fdb_read_version-sys-{0}" }}
"""


@functools.lru_cache(maxsize=None)
def unpacked():
    """The folder into which dpkg-deb unpacks the package."""
    folder = f"{room()}/unpacked"
    run(["dpkg-deb", "-x", file_of(".deb"), folder])
    return folder


def without_rt(top):
    """What is set where the package is installed below a folder, and no kit is."""
    folders = [it for it in os.environ["PATH"].split(":") if not os.path.exists(f"{it}/rt")]
    return {"PATH": ":".join([f"{top}/usr/bin", *folders]), "LD_LIBRARY_PATH": f"{top}/{LIBRARIES}",
            "HOME": os.environ.get("HOME", "/"), "PKG_CONFIG_SYSROOT_DIR": top,
            "PKG_CONFIG_LIBDIR": f"{top}/{LIBRARIES}/pkgconfig",
            # (else those of the system are left out, though they are not those of the folder)
            "PKG_CONFIG_ALLOW_SYSTEM_CFLAGS": "1", "PKG_CONFIG_ALLOW_SYSTEM_LIBS": "1"}


def ready():
    """Whether there is a package; else it is said what is missing, or that it was not made."""
    return not missing() and made()[1].status == 0


# ---- README.md and its neighbours


def of_documents(_program):
    """Each run that a document of the package shows prints that, by the programs of the package."""
    if not ready():
        yield "no package", None
        return
    top, count = unpacked(), 0
    env = without_rt(top)
    yield "no rt", shutil.which("rt", path=env["PATH"])
    for path in sorted(files_in(f"{top}/{DOCUMENTS}", ".md")):
        for language, block in BLOCK.findall(read(path).decode()):
            first, _, rest = block.partition("\n")
            if not language and first.startswith(("$ ./fdb_audit", "$ ./fdb_replay")):
                count += 1
                words = ["sh", "-c", installed(first[2:])]
                ran = run(words, cwd=f"{top}/{DOCUMENTS}", env=env)
                yield f"{os.path.basename(path)}: {first}", fault_of(ran, ended_with(rest.encode()))
    yield "runs in documents", None if count > 2 else f"there are {count}"
    yield from of_tools(top, env)


def of_tools(top, env):
    """The tools in Python make what stands in the examples, and name what is installed."""
    logs = f"{top}/{DOCUMENTS}/examples/logs"
    for tool, given in (("fdb-audit-from-foundationdb", "trace.json"),
                        ("fdb-audit-from-jepsen", "jepsen.edn")):
        wanted = read(f"{logs}/{os.path.splitext(given)[0]}.jsonl")
        yield tool, fault_of(run([tool, f"{logs}/{given}"], env=env), Ran(0, wanted, None))
    asked = [sys.executable, "-B", "-c", "import eight_clients as it; print(it.AUDIT)"]
    ran = run(asked, env={**env, "PYTHONPATH": f"{top}/{DOCUMENTS}/examples"})
    yield "what examples of databases start", fault_of(ran, done(b"fdb_audit\n"))
    for path in sorted(files_in(f"{top}/{SHARE}", "")):
        named = re.search(rb"tools/\w+|\./fdb_\w+", read(path))
        name = os.path.basename(path)
        yield f"commands in {name}", f"it says {named[0]!r}" if named else None


def files_in(folder, ending):
    for at, _, names in os.walk(folder):
        yield from (f"{at}/{it}" for it in names if it.endswith(ending))


def of_readme(_program):
    """All that README.md's section about logs shows works from the package alone."""
    if not ready():
        yield "no package", None
        return
    top = unpacked()
    env, folder = without_rt(top), f"{room()}/logs"
    shutil.copytree(f"{top}/{DOCUMENTS}/examples", f"{folder}/examples")
    spans = set(re.findall(r"`([^`\n]+)`", section(OWN_LOGS)))
    asked = {it for it in spans if "fdb_audit " in it or "tools/" in it or it.startswith("--")}
    yield "what is shown", f"{asked ^ TRIED}" if asked ^ TRIED else None
    log = "examples/logs/stale.jsonl"

    def sh(command):
        return run(["sh", "-c", installed(command)], cwd=folder, env=env)

    ran = sh(DRAWS.replace("LOG", log))
    page = read(f"{folder}/log.html") if os.path.exists(f"{folder}/log.html") else b""
    is_drawn = page.startswith(b"<!doctype html>") and b"Stale read" in page
    yield DRAWS, None if ran.status == 0 and is_drawn else f"{ran} {page[:60]}"
    yield "--margin N", fault_of(sh(f"./fdb_audit {log} --margin 1"), Ran(0, None, b""))
    for name in ("keys", "shared"):
        words = read(f"{LOGS}/{name}.args").decode().split()
        ran = sh(" ".join([f"./fdb_audit examples/logs/{name}.jsonl", *words]))
        yield f"{name}: {' '.join(words)}", fault_of(ran, ended_with(read(f"{LOGS}/{name}.out")))
    shutil.copy(f"{folder}/{log}", f"{folder}/calls.jsonl")
    for more in ("", " --keep kept"):
        yield WATCHES + more, fault_of_watch(WATCHES + more, folder, env)


def fault_of_watch(command, folder, env):
    """What is wrong with a watch of a log to which a later call comes, or None."""
    how = {"cwd": folder, "env": env, "stdout": subprocess.PIPE, "start_new_session": True}
    with subprocess.Popen(["sh", "-c", installed(command)], **how) as it:
        late = threading.Timer(SECONDS, lambda: os.killpg(it.pid, signal.SIGKILL))
        late.start()
        try:
            with open(f"{folder}/calls.jsonl", "ab") as calls:
                calls.write(LATER)
            told = next((line for line in it.stdout if b"watched" not in line), b"")
        finally:
            late.cancel()
            with contextlib.suppress(ProcessLookupError):
                os.killpg(it.pid, signal.SIGTERM)
        it.stdout.read()
    return None if told.startswith(b'{"fault":"Order","at":{"line":2,') else f"it told {told!r}"


# ---- dpkg and lintian


def of_dpkg(_program):
    """dpkg installs the package into an empty folder, and removes it; lintian finds no error."""
    if not ready():
        yield "no package", None
        return
    top = f"{room()}/installed"
    for it in STATUS:
        os.makedirs(f"{top}/{it}")
    open(f"{top}/var/lib/dpkg/status", "w", encoding="ascii").close()
    dpkg = ["dpkg", f"--root={top}", *FORCED]
    yield "installed", fault_of_end(run([*dpkg, "--install", file_of(".deb")]))
    own = sorted(files_in(f"{top}/usr", ""))
    is_so = own == sorted(it.replace(unpacked(), top) for it in files_in(f"{unpacked()}/usr", ""))
    yield "its files", None if is_so else f"{own}"
    ran = run([f"{top}/usr/bin/fdb_audit", f"{top}/{DOCUMENTS}/examples/logs/stale.jsonl"])
    yield "it runs", fault_of(ran, ended_with(read(f"{LOGS}/stale.out")))
    yield "its sums", fault_of_end(run([*dpkg, "--verify", PACKAGE]))
    yield "removed", fault_of_end(run([*dpkg, "--purge", PACKAGE]))
    left = [*files_in(f"{top}/usr", "")]
    yield "what is left", f"{left}" if left else None
    needs = run(["dpkg-deb", "--field", file_of(".deb"), "Depends"]).out.decode()
    is_so = re.fullmatch(r"libc6 \(>= [\d.]+\), python3\n", needs)
    yield "what it needs", None if is_so else needs
    changes = gzip.decompress(read(f"{unpacked()}/{DOCUMENTS}/changelog.gz")).decode()
    commit = text_of_record("commit")
    yield "its changelog", None if commit in changes else f"{commit} is not in {changes}"
    yield "licenses of what is linked", fault_of_licenses()
    if here("lintian"):
        words = ["lintian", "--allow-root", "--no-tag-display-limit", file_of(".deb")]
        said = run(words, seconds=MANY_SECONDS).out.decode()
        errors = [it for it in said.splitlines() if it.startswith("E: ")]
        yield "lintian", "; ".join(errors) or None


def fault_of_licenses():
    """What lacks of the licenses of the kit's libraries, of which clap stands on one, or None."""
    text = gzip.decompress(read(f"{unpacked()}/{DOCUMENTS}/linked-libraries.gz")).decode()
    heads = re.findall(r"^---- (.*)$", text, re.MULTILINE)
    licensed = {name for it in heads for name in it.split(", ")}
    is_so = {"clap", "strsim", "serde_json", "crossbeam_channel"} <= licensed
    is_so = is_so and "Apache License" in text and "Permission is hereby granted" in text
    is_so = is_so and "anyhow" not in text.split()
    own = read(f"{unpacked()}/{DOCUMENTS}/copyright").decode()
    return None if is_so and "linked-libraries.gz" in own else f"of {heads}"


def text_of_record(name):
    """What PROVED says behind a name."""
    lines = read(f"{made()[0]}/PROVED").decode().splitlines()
    return next(it.partition(" ")[2] for it in lines if it.startswith(f"{name} "))


def fault_of_end(ran):
    return None if ran.status == 0 else f"status {ran.status}: {ran.out[-200:]} {ran.err[-300:]}"


# ---- programs over the library


def of_library(_program):
    """Programs of C, Python and Rust stand on the installed library, and on nothing else."""
    if not ready():
        yield "no package", None
        return
    top = unpacked()
    env = without_rt(top)
    if here("cc") and here("pkg-config"):
        for name, out in (("first", bindings.FIRST_OF_C), ("audit", bindings.AUDIT_OF_C)):
            for how in ("", "-static"):
                yield f"{name}.c {how}", fault_of(of_c(name, how, env), done(out))
    yield from of_names()
    yield from of_wheel()
    if here("pkg-config"):
        yield from of_crates(env)


def of_c(name, how, env):
    """How a program ends that is built as pkg-config says."""
    source, program = f"{unpacked()}/{DOCUMENTS}/examples/c/{name}.c", f"{room()}/{name}{how}"
    flags = "--static" if how else ""
    said = f'$(pkg-config {flags} --cflags --libs {PACKAGE})'
    built = run(["sh", "-c", f'cc {how} -Wall -Werror "{source}" {said} -o "{program}"'], env=env)
    return run([program], env=env) if built.status == 0 else built


def of_names():
    """The package for Python finds the library in a folder by either of its names."""
    for name in (".so.0", ".so"):
        folder = f"{room()}/named{name}"
        os.makedirs(folder)
        shutil.copy(f"{unpacked()}/{LIBRARIES}/{LIBRARY}.so.0", f"{folder}/{LIBRARY}{name}")
        env = {"PYTHONPATH": bindings.PACKAGE, "FDB_READ_VERSION_LIB": folder}
        ran = run([sys.executable, f"{ROOT}/bindings/python/first.py"], env={**os.environ, **env})
        yield f"the library as {name}", fault_of(ran, done(bindings.FIRST_OF_PYTHON))


def of_wheel():
    """A wheel is installed in an environment of its own, and does what its README.md shows."""
    if not here("pip"):
        return
    python = f"{room()}/environment/bin/python"
    run([sys.executable, "-m", "venv", "--without-pip", f"{room()}/environment"])
    words = ["pip", "--python", python, "install", "--quiet", "--no-index", file_of(".whl")]
    env = {it: value for it, value in os.environ.items() if not it.startswith("PYTHON")}
    yield "the wheel is installed", fault_of_end(run(words, seconds=MANY_SECONDS, env=env))
    readme = f"{ROOT}/bindings/python/README.md"
    ran = run([python, "-c", DOCTESTS, readme], env=env, cwd=room())
    yield "its samples", fault_of(ran, done(b""))
    names = "import importlib.metadata as it; print(it.metadata('fdb-read-version')['License'])"
    sentence = run([python, "-c", names], env=env, cwd=room()).out.decode().strip()
    own = read(f"{unpacked()}/{DOCUMENTS}/copyright").decode()
    is_said = sentence.startswith("None is chosen") and f" {sentence}\n" in own
    yield "the license", None if is_said else f"{sentence!r} is not what the package says"


def of_crates(env):
    """The crates are built over the installed library, which they look for; else they say how."""
    if not here("cargo"):
        return
    for name in os.listdir(made()[0]):
        if name.endswith(".crate"):
            with tarfile.open(f"{made()[0]}/{name}") as it:
                it.extractall(room(), filter="data")
    os.makedirs(f"{room()}/user/src")
    with open(f"{room()}/user/Cargo.toml", "w", encoding="ascii") as it:
        it.write(CARGO.format(text_of("VERSION").strip()))
    shutil.copy(f"{ROOT}/bindings/rust/examples/audit.rs", f"{room()}/user/src/main.rs")
    env = {**os.environ, **env, "CARGO_TERM_COLOR": "never"}
    env.pop("FDB_READ_VERSION_LIB", None)
    words, wanted = ["cargo", "run", "--quiet", "--offline"], Ran(0, bindings.AUDIT_OF_RUST, None)
    ran = run(words, seconds=MANY_SECONDS, cwd=f"{room()}/user", env=env)
    yield "the crate over the installed library", fault_of(ran, wanted)
    named = {**env, "FDB_READ_VERSION_LIB": f"{unpacked()}/{LIBRARIES}"}
    ran = run(words, seconds=MANY_SECONDS, cwd=f"{room()}/user", env=named)
    yield "the crate over the installed archive", fault_of(ran, wanted)
    env["PKG_CONFIG_LIBDIR"] = "/nowhere"
    ran = run(words, seconds=MANY_SECONDS, cwd=f"{room()}/user", env=env)
    yield "the crate without it", None if LIBRARY_IS_MISSING in ran.err else f"{ran}"
