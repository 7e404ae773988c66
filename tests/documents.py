"""What documents say and show: lists, numbers, clauses, files, links, code and runs."""
import os
import re

import audit_logs
import definitions
import generated
import planted
from believed import counts
from edits import BESIDE, TRIED, crates, edits_in, fault_of_edit, is_recorded
from harness import ROOT, done, fault_of, files_below, run, text_of

# What a crate proves for itself, and what is private to it: others go by its public definitions.
INNER_OF = re.compile(r"\bRattle\.(fdb_\w+)\.(proofs|specs\.private)\b")
# The most edits that the gate tries, and the crates that have any: each of these is proved for them
# once more.
MOST_TRIED = 20
TRIED_OF = {"fdb_chain", "fdb_history", "fdb_live", "fdb_proxy", "fdb_queue"}
# What is trusted of a kit, in what rt says of it. Kits with the same logic differ in their letter.
LOGIC = re.compile(r"\blogic [0-9a-f]+\b")
# Where README.md says how many lines of definitions there are, by the names of believed.counts.
COUNTED = "rest on %(headline)d lines of ours"
PROMISES = "docs/PROMISES.md"
# The table of a library's promises begins with this row, and those of docs/PROMISES.md with these.
PROMISED = "Promise|Function: clause"
OTHERS = ("Promise | Part of `IsRunOf`", "Promise | Function: clause",
          "Wrong implementation | The test")
# The tables of docs/ARCHITECTURE.md that say which file has what, and where files stand by ending.
ARCHITECTURE = "docs/ARCHITECTURE.md"
PLACED = re.compile(r"^.*\|(?:Files|Tests)$", re.MULTILINE)
FOLDERS = {".rt": "crates/{}/src", ".antt": "crates/{}/specs", ".py": "tests"}
CODE = re.compile(r"`([^`\n]+)`")
INNER = re.compile(r"\(([^)]*)\)")
FN = r"(?:pub(?:\(crate\))? )?(?:extern \"C\" )?fn"
BLOCK = re.compile(r"^```(\w*)\n(.*?)^```$", re.MULTILINE | re.DOTALL)
LINK = re.compile(r"\]\(([^)\s]+)\)")
# Where a link may lead to in a document: its headings and its anchors.
HEADING = re.compile(r"^#+ (.*)$", re.MULTILINE)
ANCHOR = re.compile(r'<a id="([^"]+)">')
# What a document says that a crate prints, in words; "prints" may be a link.
PRINTED = re.compile(r"\bprints\b(?:\]\([^)]*\))? `([^`\n]+ [^`\n]+)`")


def exists(path):
    return os.path.exists(f"{ROOT}/{path}")


def readme_of(crate):
    return f"crates/{crate}/README.md"


def documents():
    """The documents, as paths from the top: README.md, those of docs/, of examples/, of crates."""
    own = filter(exists, map(readme_of, crates()))
    return ["README.md", *files_below("docs", ".md"), *files_below("examples", ".md"), *own]


def sources_of(crate, *parts):
    """The files of a crate in src/, specs/ or proofs/."""
    return [path for it in parts for path in files_below(f"crates/{crate}/{it}", ".rt", ".antt")]


def code_of(crate):
    """The code and the definitions of a crate, as one text."""
    return "\n".join(map(text_of, sources_of(crate, "src", "specs")))


def blocks():
    """Yields the blocks of code of the documents: the document, the language and the code."""
    for document in documents():
        for language, code in BLOCK.findall(text_of(document)):
            yield document, language, code


def said_so(document, said):
    return f"{document}: {said}", None if said in text_of(document) else "it does not say so"


# ---- lists and numbers


def lists(_program):
    """The lists of definitions and of wrong bodies are those that the sources give."""
    for by in (definitions, planted):
        yield by.DOCUMENT, generated.fault_of(by.DOCUMENT, by.lines())
    bare = definitions.without_comment()
    fault = f"none at {', '.join(bare)}" if bare else None
    yield "comments of what the headline rests on", fault


def private(_program):
    """No crate cites another's proofs and private definitions, and no public file its own."""
    for crate in crates():
        faults = []
        for path in sources_of(crate, "src", "specs", "proofs"):
            is_public = "/specs/" in path and "/specs/private/" not in path
            inner = INNER_OF.findall(text_of(path))
            faults += [f"{path} cites {whose}.{part}" for whose, part in inner
                       if whose != crate or is_public and part == "specs.private"]
        yield f"crates/{crate}", "; ".join(faults) or None


def edits(_program):
    """Each planted wrong body applies to its crate, and the gate tries few, of few crates."""
    tried = {crate: len(edits_in(crate, TRIED)[0]) for crate in crates()}
    fault = f"there are {sum(tried.values())}, and {MOST_TRIED} are the most"
    yield f"all of {TRIED}", fault if sum(tried.values()) > MOST_TRIED else None
    for crate in crates():
        for folder in (TRIED, BESIDE):
            found, others = edits_in(crate, folder)
            fault = f"{', '.join(others)}: no edit and no .md" if others else None
            yield f"crates/{crate}/{folder}", fault
            for name, file in found.items():
                yield f"crates/{crate}/{folder}/{name}.edit", fault_of_edit(crate, file)
        fault = f"the gate tries edits of {', '.join(sorted(TRIED_OF))} alone"
        yield f"crates/{crate}/{TRIED}", fault if tried[crate] and crate not in TRIED_OF else None


def recorded(_program):
    """The edits that the gate leaves out were refused on what a crate is now."""
    for crate in crates():
        fault = f"run tests/wrong_bodies {crate}: it has changed since its wrong bodies were tried"
        yield crate, None if is_recorded(crate) else fault


def believed(_program):
    """What README.md says of how much a reader has to believe is so."""
    yield said_so("README.md", COUNTED % counts())
    said = run(["rt", "version"]).out.decode(errors="replace").strip()
    logic = LOGIC.search(said)
    yield said_so("README.md", logic[0] if logic else f"no logic in {said!r}")
    yield said_so("crates/fdb_audit/src/arguments.rt", f"({logic[0]})" if logic else "no logic")


# ---- clauses and files


def rows_of(document, head):
    """The rows of the tables of a document that begin with this row, as lists of cells."""
    tables = [it.split("\n\n")[0] for it in text_of(document).split(f"\n{head}\n")[1:]]
    lines = [line for table in tables for line in table.split("\n")[1:] if line]
    return [[cell.strip() for cell in line.strip().strip("|").split("|")] for line in lines]


def clauses(_program):
    """What a row of promises names is there: functions with their clauses, definitions, tests."""
    everything = "\n".join(map(code_of, crates()))
    words = set(re.findall(r"\w+", everything)) | set(crates())
    for crate in filter(lambda it: exists(readme_of(it)), crates()):
        code = code_of(crate)
        for promise, where in rows_of(readme_of(crate), PROMISED):
            faults = faults_of_place(where, code, words)
            yield f"{readme_of(crate)}: {promise}", "; ".join(faults) or None
    for row in (row for head in OTHERS for row in rows_of(PROMISES, head)):
        names = re.findall(r"`(\w+)`", row[1])
        missing = [it for it in names if it not in words and not exists(f"examples/{it}.json")]
        yield f"{PROMISES}: {row[0]}", f"there is no {', '.join(missing)}" if missing else None


def faults_of_place(where, code, words):
    """What is wrong with '`Type::function`: `clause` (`Definition`); (`private_function`): ..'."""
    faults = []
    for part in where.split("; "):
        functions, _, said = part.partition(": ")
        functions = functions.strip("()") if functions.startswith("(") else functions
        of_definitions = CODE.findall(" ".join(INNER.findall(f"{functions} {said}")))
        names, wanted = (CODE.findall(INNER.sub("", it)) for it in (functions, said))
        found = {name: declared(code, name.split("::")[-1]) for name in names}
        text = "\n".join(found.values()) or code
        faults += [f"there is no {name}" for name in names if not found[name]]
        faults += [f"no definition {name}" for name in of_definitions if name not in words]
        clause = r"\b(?:ensures|requires|ghost) {}\b".format
        faults += [f"no clause {name}" for name in wanted if not re.search(clause(name), text)]
    return faults


def declared(code, name):
    """What a crate says of a function of this name, up to the next one; of a type all its code."""
    if re.search(rf"^(?:pub )?(?:struct|enum|trait|impl)\b.*\b{name}\b", code, re.MULTILINE):
        return code
    parts = re.split(rf"(?=^[ \t]*{FN} )", code, flags=re.MULTILINE)
    return "".join(part for part in parts if re.match(rf"\s*{FN} {name}\b", part))


def placed(_program):
    """Each file of the tables of files is there, and has what stands behind it."""
    heads = PLACED.findall(text_of(ARCHITECTURE))
    for what, *cells in (row for head in heads for row in rows_of(ARCHITECTURE, head)):
        faults = [fault for cell in cells for fault in faults_of_files(cell)]
        yield f"{ARCHITECTURE}: {what}", "; ".join(faults) or None


def faults_of_files(cell):
    """What is wrong with '`crate/file.rt` (`name`), `file.rt`'; a crate counts until the next."""
    crate, file, faults = "", "", []
    for word in CODE.findall(cell):
        ending = os.path.splitext(word)[1]
        if ending in FOLDERS or "/" in word:
            rest = word
            if word.startswith("fdb_"):
                crate, _, rest = word.partition("/")
            is_placed = ending in FOLDERS and not word.startswith("tools/")
            file = f"{FOLDERS[ending].format(crate)}/{rest}" if is_placed else word
            faults += [f"there is no {file}"] * (not exists(file))
        elif not exists(file) or not re.search(rf"\b{word}\b", text_of(file)):
            faults.append(f"{file} has no {word}")
    return faults


# ---- links and code


def links(_program):
    """Each link of a document leads to a file, and to a heading or an anchor that it has."""
    for document in documents():
        within = [to for to in LINK.findall(text_of(document)) if not to.startswith("https://")]
        lost = [to for to in within if not leads(document, to)]
        yield f"links of {document}", f"they lead nowhere: {', '.join(lost)}" if lost else None


def leads(document, to):
    """Whether a link of a document leads to something."""
    path, _, place = to.partition("#")
    target = os.path.normpath(f"{os.path.dirname(document)}/{path}") if path else document
    target = target.lstrip("/")
    return exists(target) and (not place or place in places_of(text_of(target)))


def places_of(text):
    """The places of a document that a link may name."""
    titles = [re.sub(r"[^\w\- ]", "", title.lower()) for title in HEADING.findall(text)]
    return {title.replace(" ", "-") for title in titles} | set(ANCHOR.findall(text))


def code(_program):
    """Rust that a document shows is code of a crate, and C that of an example: what it uses line by
    line, and each part between blank lines whole. What it says that a crate prints stands in that
    crate's stdout.
    """
    of_crates = [path for it in crates() for path in sources_of(it, "src")]
    files = {"rust": of_crates, "c": files_below("examples/c", ".c")}
    sources = {it: [as_lines(text_of(path)) for path in files[it]] for it in files}
    for document, language, shown_code in blocks():
        for part in shown_code.split("\n\n") if language in sources else []:
            fault = fault_of_code(as_lines(part).strip(), sources[language])
            yield f"{document}: {part.strip().splitlines()[0]}", fault
    outputs = filter(exists, (f"crates/{crate}/stdout" for crate in crates()))
    printed = "\n".join(map(text_of, outputs)).splitlines()
    for document in documents():
        for line in PRINTED.findall(text_of(document)):
            fault = None if line in printed else "no crate does"
            yield f"{document} says what is printed: {line}", fault


def as_lines(text):
    """A text without what its lines are indented by."""
    return "\n".join(line.strip() for line in text.split("\n"))


def fault_of_code(text, sources):
    """Why a part of the code that a document shows is none of these sources, or None."""
    if text.startswith(("use ", "ghost use ", "#![tactic", "#include ")):
        lines = {line for source in sources for line in source.split("\n")}
        missing = [line for line in text.split("\n") if line not in lines]
        return f"no source has the line: {missing[0]}" if missing else None
    whole = any(f"\n{text}\n" in f"\n{source}\n" for source in sources)
    return None if whole else "no source has these lines, one after another"


def runs(program):
    """A block of a run shows what the program prints, and one of a script or log is an example."""
    programs = {"./fdb_replay": program, "./fdb_audit": audit_logs.PROGRAM}
    scripts = [text_of(it).strip() for it in files_below("examples", ".json", ".jsonl")]
    for document, language, block in blocks():
        first, _, rest = block.partition("\n")
        words = first.split()[1:]
        if not language and words[:1] and words[0] in programs:
            ran = run([programs[words[0]], *words[1:]], cwd=ROOT)
            if ran.out.startswith((b"audit fault", b"audit total")):
                # (its status, and its line on standard error, are not shown)
                ran = ran._replace(status=0, err=b"")
            yield f"{document}: {first}", fault_of(ran, done(rest.encode()))
        elif not language and first.startswith("{"):
            fault = None if block.strip() in scripts else "it is no script or log of examples/"
            yield f"{document}: {first}", fault
