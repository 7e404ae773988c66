"""The header for C against the crate that it is written for: functions, structs and numbers.

Nobody proves a header. So each exported function, each struct that crosses and each number of the
crate is read from its source, spelled in C, and looked for in the header, in the same order. So is
what the packages for Rust and Python declare.
"""
import re

from harness import files_below, text_of

HEADER, SOURCES = "include/fdb_read_version.h", "crates/fdb_c/src"
OF_RUST, OF_PYTHON = "bindings/rust/sys/src", "bindings/python/src"

COMMENT = re.compile(r"/\*.*?\*/|//[^\n]*", re.DOTALL)
EXPORT = re.compile(r'pub extern "C" fn (\w+)\(([^{]*?)\)(?: -> (\w+))?\s*(?:requires|ensures|\{)')
STRUCT = re.compile(r"#\[repr\(C\)\]\s*(?:#\[[^\]]*\]\s*)*pub struct (\w+) \{(.*?)\n\}", re.DOTALL)
FIELD = re.compile(r"(?:pub )?(\w+): ([^,\n]+),")
NUMBER = re.compile(r"pub const (FDB_\w+): u8 = (\d+);")
FOREIGN = re.compile(r"pub fn (\w+)\(([^)]*)\)(?:\s*-> (\w+))?;")
OF_C = re.compile(r"\b(\w+) (fdb_\w+)\(([^)]*)\);")
STRUCT_OF_C = re.compile(r"typedef struct (fdb_\w+) \{(.*?)\} \1;", re.DOTALL)
NUMBER_OF_C = re.compile(r"\b(FDB_\w+) = (\d+)")
STRUCT_OF_PYTHON = re.compile(r"class Raw(\w+)\(Structure\):\s+_fields_ = \[(.*?)\]\n\n", re.DOTALL)
FIELD_OF_PYTHON = re.compile(r'\("(\w+)", (?:c_|Raw)(\w+)(?: \* (\d+))?\)')
# The structs of the package for Python that are not named as those of the header.
OTHERWISE = {
    "Config": ["QueueConfig"], "Options": ["AuditOptions"],
    "Handle": ["Chain", "Queue", "Audit", "Watch"],
}
PLAIN = {"u64": "uint64_t", "u32": "uint32_t", "u8": "uint8_t", "usize": "size_t", "bool": "bool"}
PLAIN = {**PLAIN, None: "void"}
# What stands before a name of the package for Python in that of the header, by its class.
PREFIXES = {"FaultKind": "FAULT_", "Reason": "REASON_", "Means": "MEANS_"}
# Where a version stands, how, and how often.
VERSIONS = (
    (HEADER, r"#define FDB_READ_VERSION_VERSION (\d+)$", 1),
    (f"{SOURCES}/status.rt", r"(?:ensures \{ result ≡ |The version, |^    )([\d.]*\d)\b", 3),
    ("crates/fdb_audit/src/arguments.rt", r'^const VERSION: &str = "([\d.]+) \(', 1),
    (f"{OF_RUST}/lib.rs", r"FDB_READ_VERSION_VERSION: u32 = (\d+);", 1),
    (f"{OF_PYTHON}/fdb_read_version/_library.py", r"^VERSION = (\d+)$", 1),
    (f"{OF_PYTHON}/fdb_read_version/__init__.py", r'^__version__ = "(.*)"$', 1),
    ("bindings/python/pyproject.toml", r'^version = "(.*)"$', 1),
    ("bindings/rust/Cargo.toml", r'(?:^|\{ )version = "([^"]*)"', 2),
    ("bindings/rust/sys/Cargo.toml", r'^version = "(.*)"$', 1),
    ("bindings/rust/Cargo.lock", r'^version = "(.*)"$', 2),
)
# Numbers of C alone: a priority is an enum of the library's.
OF_C_ALONE = {"FDB_SYSTEM", "FDB_DEFAULT", "FDB_BATCH"}


def without_comments(*files):
    return "\n".join(COMMENT.sub("", text_of(it)) for it in files)


def sources():
    return without_comments(*files_below(SOURCES, ".rt"))


def of_rust():
    return without_comments(*files_below(OF_RUST, ".rs"))


def words(text):
    return " ".join(text.split())


def name_in_c(name):
    """FdbQueueConfig is fdb_queue_config."""
    return re.sub(r"(?<!^)(?=[A-Z])", "_", name).lower()


def type_in_c(type_of):
    return PLAIN[type_of] if type_of in PLAIN else name_in_c(type_of)


def parameter_in_c(name, type_of):
    """A parameter as C declares it; a slice is a pointer and a length."""
    slice_of = re.fullmatch(r"&(mut )?\[(\w+)\]", type_of)
    one = re.fullmatch(r"(?:&|\*(?=mut|const ))(?:const )?(mut )?(\w+)", type_of)
    if type_of == "Global":
        return []
    if slice_of:
        const = "" if slice_of[1] else "const "
        return [f"{const}{type_in_c(slice_of[2])} *{name}", f"size_t {name}_length"]
    if one:
        return [f"{'' if one[1] else 'const '}{type_in_c(one[2])} *{name}"]
    return [f"{type_in_c(type_of)} {name}"]


def functions(pattern, text):
    """What each function of these is called in C, by its name."""
    found = {}
    for name, parameters, result in pattern.findall(text):
        pairs = [it.strip().split(": ", 1) for it in parameters.split(",") if it.strip()]
        spelled = [part for pair in pairs for part in parameter_in_c(*pair)]
        found[name] = f"{type_in_c(result or None)} {name}({', '.join(spelled) or 'void'})"
    return found


def declared():
    return {
        name: words(f"{result} {name}({parameters})")
        for result, name, parameters in OF_C.findall(without_comments(HEADER))
    }


def field_in_c(name, type_of):
    array = re.fullmatch(r"\[(\w+); (\d+)\]", type_of)
    if array:
        return f"{PLAIN[array[1]]} {name}[{array[2]}]"
    if type_of.startswith("*mut "):
        return f"void *{name}"
    return f"{type_in_c(type_of)} {name}"


def structs(text):
    found = {}
    for name, body in STRUCT.findall(text):
        fields = [it for it in body.splitlines() if not it.strip().startswith("ghost ")]
        found[name_in_c(name)] = [field_in_c(*it) for it in FIELD.findall("\n".join(fields))]
    return found


def structs_of_python(text):
    found = {}
    for name, body in STRUCT_OF_PYTHON.findall(text):
        fields = [field_of_python(*it) for it in FIELD_OF_PYTHON.findall(body)]
        found |= {name_in_c(f"Fdb{it}"): fields for it in OTHERWISE.get(name, [name])}
    return found


def field_of_python(name, type_of, length):
    if type_of == "void_p":
        return f"void *{name}"
    if not type_of.islower():
        type_of = name_in_c(f"Fdb{type_of}")
    elif type_of != "bool":
        type_of += "_t"
    return f"{type_of} {name}[{length}]" if length else f"{type_of} {name}"


def structs_of_header():
    found = STRUCT_OF_C.findall(without_comments(HEADER))
    return {name: [words(it) for it in body.split(";") if it.strip()] for name, body in found}


def compared(ours, theirs):
    """Each name of either, with how the two differ in it, or None."""
    for name in sorted({*ours, *theirs}):
        if name not in theirs:
            yield name, "the header does not have it"
        elif name not in ours:
            yield name, "the crate does not have it"
        elif ours[name] != theirs[name]:
            yield name, f"the header has {theirs[name]!r} in place of {ours[name]!r}"
        else:
            yield name, None


def named(_program):
    """Each status, member and kind of fault has its name."""
    text = without_comments(HEADER)
    enums = [NUMBER_OF_C.findall(it) for it in re.findall(r"enum \{(.*?)\};", text, re.DOTALL)]
    for function, first, spelled in (
        ("fdb_status_name", "FDB_OK", str),
        ("fdb_member_name", "FDB_CLIENT", str.lower),
        ("fdb_fault_name", "FDB_FAULT_ORDER", lambda it: it[6:].title().replace("_", "")),
    ):
        numbers = next(names for names in enums if names[0][0] == first)
        body = text[text.index(f"char *{function}(") :].partition("\n}")[0]
        names = re.findall(r'case (\w+): return "(\w+)";', body)
        wanted = [(name, spelled(name[4:])) for name, _number in numbers]
        yield f"names by {function}", None if names == wanted else f"{names}"


def versions(_program):
    """Each version is the one of the file VERSION, as it stands there or as one number."""
    version = text_of("VERSION").strip()
    parts = [int(it) for it in re.fullmatch(r"(\d+)\.(\d\d?)\.(\d\d?)", version).groups()]
    number = str(sum(it * by for it, by in zip(parts, (10000, 100, 1))))
    for file, pattern, count in VERSIONS:
        found = re.findall(pattern, text_of(file), re.MULTILINE)
        is_so = len(found) == count and {*found} <= {version, number}
        yield file, None if is_so else f"{found} in place of {version}"


def agrees(_program):
    """Functions, structs and numbers of the header are those of the crate and the packages."""
    header = dict(NUMBER_OF_C.findall(without_comments(HEADER)))
    own = {name: it for name, it in header.items() if name not in OF_C_ALONE}
    yield from compared(functions(EXPORT, sources()), declared())
    yield from compared(structs(sources()), structs_of_header())
    yield from compared(dict(NUMBER.findall(sources())), own)
    for case, fault in (
        *compared(functions(FOREIGN, of_rust()), declared()),
        *compared(structs(of_rust()), structs_of_header()),
        *compared(dict(NUMBER.findall(of_rust())), header),
    ):
        yield f"{case} of Rust", fault
    python = "\n".join(map(text_of, files_below(OF_PYTHON, ".py")))
    for kind, body in re.findall(r"class (\w+)\(Named\):(.*?)(?=\n\S|\Z)", python, re.DOTALL):
        for name, number in re.findall(r"^    ([A-Z_]+) = (\d+)$", body, re.MULTILINE):
            in_c = f"FDB_{PREFIXES.get(kind, '')}{name}"
            yield f"{kind}.{name} of Python", None if header.get(in_c) == number else in_c
    for case, fault in compared(structs_of_python(python), structs_of_header()):
        yield f"{case} of Python", fault
    given = re.findall(r'^    "(fdb_\w+)": ', python, re.MULTILINE)
    fault = {*given} ^ {*declared()}
    yield "functions of Python", f"{fault}" if fault else None
    yield "crates in tools/bindings", fault_of_crates()


def fault_of_crates():
    """What tools/bindings builds anew after an edit is each crate that the library stands on."""
    own = dict(line.split(": ", 1) for line in text_of("crates.txt").splitlines() if ": " in line)
    needed, found = {"fdb_c"}, set()
    while needed:
        found |= needed
        below = [own.get(it, own.get(f"{it} staticlib", "")).split() for it in found]
        more = set(sum(below, []))
        needed = {it for it in more if it.startswith("fdb_")} - found
    named = re.search(r"crates/fdb_\{(.*?)\}", text_of("tools/bindings"))[1].split(",")
    fault = found ^ {"fdb_c", *(f"fdb_{it}" for it in named)}
    return f"{fault}" if fault else None
