"""The library for C, its header and its packages: C, Python and Rust programs over what was built.

tools/bindings builds the library. A compiler, or cargo, that is not there leaves out its cases.
"""
import os
import random
import re
import shutil
import subprocess
import sys
import tempfile
import types

import header
import model
from harness import MANY_SECONDS, ROOT, Ran, done, fault_of, files_below, run, text_of

OUT = f"{ROOT}/crates/fdb_c/out"
SHARED, STATIC, OF_C = (
    f"{OUT}/{it}" for it in ("libfdb_read_version.so", "libfdb_read_version.a", "liblibc_c.a")
)
# (tools/bindings makes it last)
NEEDED = [SHARED]
PACKAGE = f"{ROOT}/bindings/python/src"
CRATE, README_OF_RUST = f"{ROOT}/bindings/rust", "bindings/rust/README.md"
DIFFERENTIAL = f"{ROOT}/examples/differential/run.py"
STRICT = ["-std=c11", "-O1", "-g", "-Wall", "-Wextra", "-Wpedantic", "-Werror"]
SANITIZED = ["-fsanitize=address,undefined", "-fno-sanitize-recover=all"]
WRAPPED = ["-Wl,--wrap=malloc,--wrap=realloc"]
COMPILERS = ["gcc", "clang"]

FIRST_OF_C = b"version 200 after 100\n7 is early: 2 is next\n"
AUDIT_OF_C = b"call 1 is stale: 200 was known, as call 0 had ended\n"
FIRST_OF_PYTHON = b"""\
Issued(ordinal=0, proxy=0, num=1, processed=0, prev=100, version=200, at=5, fresh=True)
refused: EARLY, expected 1
[17]
"""
AUDIT_OF_PYTHON = b"""\
Fault(place=1, kind=<FaultKind.ORDER: 1>, reason=<Reason.KNOWN: 1>, other=None, \
known=Known(version=200, means=<Means.ENDED: 2>, place=0, learnt=None), late=Late(place=0, by=1))
audit fault: Order 2: client 2 read 100, but 200 was known: line 1 (client 1, commit 200) \
had ended 1 before line 2 began
"""
FIRST_OF_RUST = b"""\
Issued { ordinal: 0, proxy: 0, num: 1, processed: 0, prev: 100, version: 200, at: 5, fresh: true }
Err(Early { expected: 1 })
[Request { priority: Default, count: 3, payload: 17 }]
"""
INSTALLED = """
import fdb_read_version, importlib.metadata
said = importlib.metadata.metadata("fdb-read-version")
for name in ("Version", "Summary", "Author-email", "Requires-Python"):
    print(said[name])
print(fdb_read_version.Chain(100, 200, 1).ask(0, 1, 5).version, len(fdb_read_version.__all__))
"""
VERSION = text_of("VERSION").strip()
METADATA = f"""\
{VERSION}
The read-version path of FoundationDB 7.1, proved, and an audit of logs, from Python
Joskleme maintainers <maintainers@users.noreply.joskleme.example>
>=3.9
200 32
""".encode()
AUDIT_OF_RUST = b"""\
Fault { place: 1, kind: Order, reason: Known { version: 200, means: Ended(0) }, \
late: Some(Late { place: 0, by: 1 }) }
"""


# ---- C


def compiled(compiler, source, to, flags=()):
    """How a program of C is built over the library."""
    words = [compiler, *STRICT, *flags, f"-I{ROOT}/include", f"{ROOT}/{source}", STATIC, OF_C]
    return run([*words, "-o", to], seconds=MANY_SECONDS)


def fault_of_program(compiler, source, flags, wanted):
    with tempfile.TemporaryDirectory() as room:
        built = compiled(compiler, source, f"{room}/program", flags)
        if built.status:
            return f"it does not compile: {built.err[-300:].decode(errors='replace')}"
        return fault_of(run([f"{room}/program"], seconds=MANY_SECONDS), done(wanted))


def of_c(_program):
    """Programs of C, by each compiler, with its sanitizers and with memory that is refused."""
    found = [it for it in COMPILERS if shutil.which(it)]
    yield "a compiler of C", None if found else "there is none"
    for compiler in found:
        for source, flags, wanted in (
            ("examples/c/first.c", [], FIRST_OF_C),
            ("examples/c/audit.c", [], AUDIT_OF_C),
            ("tests/c/calls.c", [], b"ok\n"),
            ("tests/c/calls.c", SANITIZED, b"ok\n"),
            ("tests/c/audit.c", [], b"ok\n"),
            ("tests/c/audit.c", SANITIZED, b"ok\n"),
            ("tests/c/watch.c", [], b"ok\n"),
            ("tests/c/watch.c", SANITIZED, b"ok\n"),
            ("tests/c/memory.c", WRAPPED, b"ok\n"),
            ("tests/c/threads.c", [*SANITIZED, "-pthread"], b"ok\n"),
            ("tests/c/stack.c", ["-pthread"], b"ok\n"),
        ):
            case = f"{source} by {compiler} {' '.join(flags)}"
            yield case, fault_of_program(compiler, source, flags, wanted)
    if shutil.which("g++"):
        words = ["g++", "-fsyntax-only", "-Wall", "-Werror", "-x", "c++", f"{ROOT}/{header.HEADER}"]
        yield "the header by g++", fault_of(run(words), done(b""))


def linked(_program):
    """What the built library exports is what the header declares."""
    ran = run(["nm", "--defined-only", "--extern-only", STATIC])
    names = {it.split()[-1] for it in ran.out.decode().splitlines() if " T fdb_" in it}
    # (functions of Rattle are named with their paths)
    exports = {it for it in names if it.isidentifier()}
    for name in sorted({*header.declared(), *exports}):
        fault = "the library does not export it" if name not in exports else None
        yield name, fault or (None if name in header.declared() else "it is not declared")
    shared = run(["nm", "--dynamic", "--defined-only", SHARED]).out.decode().splitlines()
    fault = {it.split()[-1] for it in shared} ^ {*header.declared()}
    yield "what the shared object exports", f"{fault}" if fault else None
    said = run(["readelf", "--dynamic", SHARED]).out
    fault = None if b"soname: [libfdb_read_version.so.0]" in said else "it has another one"
    yield "the shared object's name", fault


# ---- Python


def package():
    if PACKAGE not in sys.path:
        sys.path.insert(0, PACKAGE)
    import fdb_read_version

    return fdb_read_version


def python(words, given=b""):
    env = {**os.environ, "PYTHONPATH": PACKAGE}
    return run([sys.executable, *words], given, MANY_SECONDS, env=env)


def of_python(_program):
    """The examples of Python, and the differential example."""
    for name, wanted in (("first", FIRST_OF_PYTHON), ("first_audit", AUDIT_OF_PYTHON)):
        yield name, fault_of(python([f"{ROOT}/bindings/python/{name}.py"]), done(wanted))
    found = python([DIFFERENTIAL, "1000", "5"])
    yield "the differential example", fault_of(found, Ran(0, None, b""))
    lines = found.out.decode().splitlines()
    for kind, has_bug in (
        ("Sequencer", False),
        ("Grv", False),
        ("LosesAReply", True),
        ("DrawsTwice", True),
        ("LetsBatchIn", True),
    ):
        line = next((it for it in lines if it.startswith(f"{kind}: ")), "")
        fault = None if line and ("step " in line) == has_bug else f"it says {line!r}"
        yield f"the differential example at {kind}", fault


def of_package(_program):
    """What the package for Python has: its tests, its types, its sdist and its wheel."""
    for file in files_below("bindings/python/tests", ".py"):
        ran = python(["-W", "error", f"{ROOT}/{file}"])
        yield file, None if ran.status == 0 else ran.err[-1000:].decode(errors="replace")
    for tool, case, fault in (
        ("mypy", "mypy --strict", fault_of_types),
        ("pip", "what pip installs from the sdist", fault_of_installed),
    ):
        if shutil.which(tool):
            yield case, fault()
        else:
            print(f"(there is no {tool}: left out) ", end="")


def fault_of_types():
    """What mypy says of the package."""
    with tempfile.TemporaryDirectory() as room:
        words = ["mypy", "--strict", "--cache-dir", room, PACKAGE, f"{PACKAGE}/../build_wheel.py"]
        ran = run(words, seconds=MANY_SECONDS)
    return None if ran.status == 0 else ran.out[-1000:].decode(errors="replace")


def fault_of_installed():
    """An sdist and the wheel of it: what they say, and that what is installed stands alone."""
    env = {**os.environ, "PYTHONPATH": f"{PACKAGE}/..", "FDB_READ_VERSION_LIB": SHARED}
    with tempfile.TemporaryDirectory() as room:
        made = "import build_wheel, sys; print(build_wheel.build_sdist(sys.argv[1]))"
        ran = run([sys.executable, "-c", made, room], env=env)
        name = f"fdb_read_version-{VERSION}.tar.gz"
        if ran != done(f"{name}\n".encode()):
            return f"the sdist: {ran}"
        how = ["--quiet", "--no-index", "--no-build-isolation", "--no-compile", "--target"]
        words = ["pip", "install", *how, f"{room}/site", f"{room}/{name}"]
        ran = run(words, seconds=MANY_SECONDS, env=env)
        if ran.status:
            return ran.err[-1000:].decode(errors="replace")
        env = {**os.environ, "PYTHONPATH": f"{room}/site", "FDB_READ_VERSION_LIB": ""}
        return fault_of(run([sys.executable, "-c", INSTALLED], env=env, cwd=room), done(METADATA))


def said_of(call):
    """What the model says of an answer, in the words of its line."""
    library = package()
    try:
        issued = call()
    except library.Refused as refused:
        name = refused.status.name.title()
        return f"refused {name} {refused.expected}" if refused.expected else f"refused {name}"
    place = f"prev {issued.prev} version {issued.version} ordinal {issued.ordinal}"
    return f"{place} {'fresh' if issued.fresh else 'kept'}"


def chains(_program):
    """Random requests to a chain against the model of the scripts."""
    for seed in range(20):
        rng = random.Random(seed)
        proxies = rng.randint(1, 64)
        made = types.SimpleNamespace(
            epoch_end=rng.randrange(1000), recovery=rng.choice([1000, model.LAST_VERSION - 20])
        )
        members = {"rounds": [], "normal": 1, "batch": 0, "throttles": [], "clients": proxies}
        theirs = model.Run(types.SimpleNamespace(**vars(made), **members))
        with package().Chain(made.epoch_end, made.recovery, proxies) as chain:
            yield f"seed {seed}", fault_of_chain(rng, theirs, chain, proxies)


def fault_of_chain(rng, theirs, chain, proxies):
    moment = 0
    for step in range(300):
        moment = rng.choice([moment, moment + 1, moment + rng.randrange(6_000_000), moment // 2])
        proxy = rng.randrange(min(proxies, 3))
        latest = theirs.latest(proxy)
        num = max(0, latest + rng.choice([1, 1, 1, 0, -1, -3, 2]))
        processed = max(0, latest - rng.randrange(4))
        it = types.SimpleNamespace(at=moment, processed=processed)
        wanted = theirs.drawn(proxy, num, it)
        got = said_of(lambda: chain.ask(proxy, num, moment, processed))
        if got != wanted:
            return f"step {step}: {got!r} in place of {wanted!r}"
    return None


def records(_program):
    """Random reports to a record against the model of the scripts."""
    rng, library = random.Random(5), package()
    for case in range(50):
        ours, theirs = library.Record(100), model.Record(100, False, None)
        fault = None
        for _ in range(20):
            metadata = rng.choice([None, bytes(rng.randrange(256) for _ in range(10))])
            members = (rng.randrange(1 << 40), rng.random() < 0.5, metadata, rng.randrange(1 << 40))
            ours = ours.after_report(library.Record(*members))
            theirs = theirs.after(model.Record(*members))
            same = (ours.version, ours.locked, ours.metadata, ours.min_known) == tuple(theirs)
            read = (ours.version_for(), ours.version_for(True)) == (theirs[0], theirs[3])
            fault = fault or (None if same and read else f"{ours} in place of {theirs}")
        yield f"case {case}", fault


# ---- Rust


def bare(text):
    """Rust without comments, attributes, white space, numbers of variants and last commas."""
    text = re.sub(r"//[^\n]*|#\[[^\n]*\]| = \d+|\s+", "", text)
    return re.sub(r",([)}])", r"\1", text)


def declared_in(text):
    """What a text of Rust declares: of each type and function, by its whole name, how."""
    found = {}
    for name, body in re.findall(r"^impl (\w+) \{\n(.*?)^\}$", text, re.M | re.S):
        found |= {f"{name}::{it}": how for it, how in functions_in(body, "    ")}
    found |= dict(functions_in(text, ""))
    types = re.compile(r"^pub (?:struct|enum) (\w+)[^{\n]*\{(?:[^\n]+|\n.*?^)\}$", re.M | re.S)
    for it in types.finditer(text):
        # (what has private fields is a handle)
        if it[0].startswith("pub enum") or "pub " in it[0][1:]:
            found[it[1]] = bare(it[0])
    return found


def functions_in(text, indent):
    how = r"^%s(pub fn (\w+)[(<][^{;]*?)\s*[{;]$" % indent
    return [(name, bare(declared)) for declared, name in re.findall(how, text, re.M | re.S)]


def declared_in_rust(_program):
    """What the README declares is what the sources do, and nothing public is left out."""
    files = map(text_of, files_below("bindings/rust/src", ".rs"))
    sources = "\n".join(it.partition("\n#[cfg(test)]\n")[0] for it in files)
    sources = re.sub(r"^\s*(//|#\[).*\n", "", sources, flags=re.M)
    blocks = re.findall(r"^```rust,ignore\n(.*?)^```$", text_of(README_OF_RUST), re.M | re.S)
    own, shown = declared_in(sources), declared_in("".join(blocks))
    for name in sorted({*own, *shown}):
        same = own.get(name) == shown.get(name)
        yield name, None if same else f"{shown.get(name)!r} in place of {own.get(name)!r}"


def of_rust(_program):
    """The crate's tests and its examples, built offline in a folder of their own."""
    if not shutil.which("cargo"):
        print("(there is no cargo: left out) ", end="")
        yield "cargo", None
        return
    with tempfile.TemporaryDirectory() as room:
        env = {**os.environ, "CARGO_TARGET_DIR": room, "CARGO_TERM_COLOR": "never"}
        for case, words, out in (
            ("its tests", ["test", "--quiet"], None),
            ("its first example", ["run", "--quiet", "--example", "first"], FIRST_OF_RUST),
            ("its audit", ["run", "--quiet", "--example", "audit"], AUDIT_OF_RUST),
        ):
            ran = cargo(words, env)
            said = (ran.err or ran.out)[-300:].decode(errors="replace")
            wrong = ran.status != 0 or out not in (None, ran.out)
            yield case, said if wrong else None
        env["FDB_READ_VERSION_LIB"] = "/nowhere"
        said = b"/nowhere/libfdb_read_version.a is missing: make it with tools/bindings"
        ran = cargo(["check"], env)
        yield "a library that is missing", None if said in ran.err else "it is not said"


def cargo(words, env):
    words = ["cargo", *words, "--offline"]
    return run(words, seconds=MANY_SECONDS, cwd=CRATE, env=env, stdin=subprocess.DEVNULL)
