"""Manual pages and completions: what they say is what documents and help do, and tools take them.
"""
import functools
import gzip
import os
import re
import sys
import tempfile

from harness import ROOT, Ran, done, fault_of, read, run
from packaged import files_in, ready, unpacked
from released import here

sys.path.insert(0, f"{ROOT}/tools")
from release_help import help_of
from release_manual import INSTALLED, TEMPLATES, installed, page, section

HELPS = {"fdb_audit": "tests/audit_help.txt", "fdb_replay": "tests/help.txt"}
SECTION = re.compile(r"\{\{section ([^}]*)\}\}")
# The heads of a page for users, in their order; one may be missing, and others come between.
ORDER = ("NAME", "SYNOPSIS", "DESCRIPTION", "EXAMPLE", "OPTIONS", "FORMAT", "EXIT STATUS",
         "WHAT A VERDICT SHOWS", "FILES", "BUGS", "SEE ALSO")
SIGNS = {r"\e": "\\", r"\-": "-", r"\(ha": "^", r"\(ti": "~", r"\(ga": "`", r"\(aq": "'",
         r"\&": "", r"\(bu": ""}
# A request shows nothing but a title, or a number.
REQUEST = re.compile(r'^\.(?:S[HS] "(.*)"|IP (\S+) 4|[A-Z]\w.*|nf|fi|nh|ad l)$', re.MULTILINE)
LINK, ASIDE = re.compile(r"!?\[([^\]]*)\]\([^)]*\)"), re.compile(r"\(\[[^\]]*\]\([^)]*\)\)|!\[.*")
# Asks bash what it completes: the words before the cursor, the last one in part.
COMPLETED = """
source "$1"
COMP_WORDS=("${@:2}") COMP_CWORD=$(($# - 2))
"_$2"
printf '%s\\n' "${COMPREPLY[@]}"
"""


@functools.lru_cache(maxsize=None)
def pages():
    """Each page by its name, as it is made here."""
    found = {}
    for template in sorted(TEMPLATES.glob("*.md")):
        name = template.name.removesuffix(".md")
        tool = next((own for own, it in INSTALLED.items() if f"{it}.1" == name), "")
        help = read(f"{ROOT}/{HELPS[name[:-2]]}").decode() if name[:-2] in HELPS else ""
        if tool.startswith("tools/"):
            help = run([sys.executable, f"{ROOT}/{tool}", "--help"]).out.decode()
        found[name] = page(name, "1.2.3", "2026-01-02", help, tool)
    return found


def shown(text):
    """What a reader sees of a page, in a line."""
    text = REQUEST.sub(r"\1\2", re.sub(r"\\c\n", "", text))
    text = re.sub(r"\\f[BIR]", "", text)
    return re.sub(r"\\(?:\(..|.)", lambda it: SIGNS[it[0]], text)


def words(text):
    return re.findall(r"\w+", text)


def told(text):
    """The words of a section of a document, without where its links lead."""
    return words(installed(LINK.sub(r"\1", ASIDE.sub("", text))))


def lost(wanted, found):
    """The first words that do not stand in a list in their order, or None."""
    rest = iter(found)
    at = next((at for at, word in enumerate(wanted) if word not in rest), None)
    return None if at is None else " ".join(wanted[max(0, at - 3) : at + 3])


def said(_program):
    """Each page has all words of the sections that its template names, and of the help."""
    for name, text in pages().items():
        own = words(shown(text))
        template = read(TEMPLATES / f"{name}.md").decode()
        for title in SECTION.findall(template):
            yield f"{name}: {title}", lost(told(section(title)), own)
        left = re.search(r"\]\(|\*\*|```|\{\{|---\|", shown(text))
        yield f"{name}, no Markdown", shown(text)[left.start() :][:60] if left else None
    for program, file in HELPS.items():
        help, own = help_of(read(f"{ROOT}/{file}").decode()), words(shown(pages()[f"{program}.1"]))
        rows = [*help.arguments, *help.options]
        spelled = " ".join(f"{it.spelled} {it.says}" for it in rows)
        yield f"{program}.1: arguments", lost(words(spelled), own)
        yield f"{program}.1: statuses", lost(words(" ".join(map(" ".join, help.statuses))), own)
        heads = re.findall(r'^\.SH "(.*)"$', pages()[f"{program}.1"], re.MULTILINE)
        known = [it for it in heads if it in ORDER]
        is_so = known == [it for it in ORDER if it in known] and len(known) > 8
        yield f"{program}.1: its order", None if is_so else f"{heads}"


def taken(_program):
    """man and mandoc find nothing to say of the pages, neither of those of the package."""
    if not ready():
        yield "no package", None
        return
    packed = sorted(files_in(f"{unpacked()}/usr/share/man", ".gz"))
    names = {os.path.basename(it).removesuffix(".gz") for it in packed}
    yield "pages of the package", None if names == {*pages()} else f"{names}"
    has_man, has_mandoc = here("man"), here("mandoc")
    with tempfile.TemporaryDirectory() as room:
        os.chmod(room, 0o755)
        for path in packed:
            name = os.path.basename(path).removesuffix(".gz")
            with open(f"{room}/{name}", "wb") as it:
                it.write(gzip.decompress(read(path)))
            os.chmod(it.name, 0o644)
            if has_man:
                env = {**os.environ, "LC_ALL": "C.UTF-8", "MANROFFSEQ": "", "MANWIDTH": "80"}
                how = ["man", "--warnings", "-E", "UTF-8", "-l", "-Tutf8", "-Z", it.name]
                yield f"man {name}", fault_of(run(how, env=env), Ran(0, None, b""))
            if has_mandoc:
                ran = run(["mandoc", "-T", "lint", it.name])
                yield f"mandoc {name}", fault_of(ran, done(b""))


def completed(_program):
    """bash completes each argument, and zsh takes what is made for it."""
    if not ready():
        yield "no package", None
        return
    share, has_zsh = f"{unpacked()}/usr/share", here("zsh")
    for program in HELPS:
        help = run([f"{unpacked()}/usr/bin/{program}", "--help"]).out.decode()
        options = help_of(help).options
        with tempfile.TemporaryDirectory() as folder:
            for name in ("a log", "another", "-dash"):
                open(f"{folder}/{name}", "w", encoding="ascii").close()
            yield from completed_by_bash(program, options, share, folder)
        made = read(f"{share}/zsh/vendor-completions/_{program}").decode()
        for name in (name for it in options for name in (it.short, it.long) if name):
            yield f"{program} in zsh: {name}", None if f"){name}" in made else "it is not there"
        if has_zsh:
            ran = run(["zsh", "-n", f"{share}/zsh/vendor-completions/_{program}"])
            yield f"{program} in zsh", fault_of(ran, done(b""))


def completed_by_bash(program, options, share, folder):
    file = f"{share}/bash-completion/completions/{program}"

    def asked(*given):
        ran = run(["bash", "-c", COMPLETED, "bash", file, program, *given], cwd=folder)
        return ran.err.decode() or sorted(filter(None, ran.out.decode().split("\n")))

    def case(given, wanted):
        found = asked(*given)
        return f"{program} {given}", None if found == sorted(wanted) else f"{found}"

    files, longs = ["a log", "another", "-dash"], [it.long for it in options]
    names = [name for it in options for name in (it.short, it.long) if name]
    yield case([""], files)
    yield case(["a"], ["a log", "another"])
    yield case(["a log", "--"], longs)
    yield case(["-"], names)
    yield case(["--", "-"], ["-dash"])
    for it in options:
        others = [name for name in names if name != it.long]
        yield case([it.long[:-1]], [name for name in names if name.startswith(it.long[:-1])])
        if it.value:
            wanted = [] if not it.is_file else ["a log", "another"]
            yield case([it.long, "a"], wanted)
            yield case([it.long, "=", "a"], wanted)
            yield case([it.long, "="], files if it.is_file else [])
            yield case([it.long, "1", "-"], others)
        else:
            yield case([it.long, "-"], others)
