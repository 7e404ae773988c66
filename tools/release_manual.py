"""Makes manual pages, for man, of templates in tools/manual/ and of what the documents say.

A template is a page in the Markdown of the documents, and has what stands there alone. In it
{{section TITLE}} stands for the section of this heading in README.md, examples/README.md or a
document of docs/, without those below it; {{about}}, {{usage}}, {{options}} and {{statuses}} stand
for these parts of a program's help, and {{summary}} and {{told}} for what a tool in Python says of
itself. So what a page and a document both say is made from one text.
"""
import ast
import re
from pathlib import Path
from textwrap import dedent

from release_help import help_of

ROOT = Path(__file__).resolve().parent.parent
TEMPLATES = ROOT / "tools" / "manual"
DOCUMENTS = [ROOT / "README.md", ROOT / "examples" / "README.md"]
# What stands in the repository, and what is installed in its place.
INSTALLED = {
    "./fdb_audit": "fdb_audit", "./fdb_replay": "fdb_replay", "tools/picture": "fdb-audit-picture",
    "tools/from_foundationdb": "fdb-audit-from-foundationdb",
    "tools/from_jepsen": "fdb-audit-from-jepsen",
}
HEADING = re.compile(r"^(#+) (.*)$", re.MULTILINE)
FENCED = re.compile(r"^```.*?^```$", re.MULTILINE | re.DOTALL)
DIRECTIVE = re.compile(r"\{\{(\w+)(?: ([^}]*))?\}\}")
# Code, bold and slanted text.
SPAN = re.compile(r"`([^`]+)`|\*\*(.+?)\*\*|\*([^*\s](?:[^*]*[^*\s])?)\*")
# A link in brackets of its own says nothing without what it leads to.
ASIDE = re.compile(r" ?\(\[[^\]]*\]\([^)]*\)\)")
LINK = re.compile(r"\[([^\]]*)\]\([^)]*\)")
ITEM = re.compile(r"(-|\d+\.) (.*)$")
# The most bytes of a line, and of a part of a longer line of code, in which each may be escaped.
WIDTH, PART = 76, 36
ESCAPES = {"\\": r"\e", "-": r"\-", "^": r"\(ha", "~": r"\(ti", "`": r"\(ga"}
# (a line of code that begins as a heading does is none)
HASH = "\0"


class Refused(Exception):
    """Says why no page is made."""


# ---- what pages are made of


def installed(text):
    """A text in which the commands are those that are installed."""
    for own, name in INSTALLED.items():
        text = re.sub(rf"(?<![\w/.]){re.escape(own)}(?![\w/]|\.\w)", name, text)
    return text


def section(title):
    """What the documents say below this heading, up to the next one."""
    found = []
    for document in [*DOCUMENTS, *sorted((ROOT / "docs").glob("*.md"))]:
        text = document.read_text(encoding="utf-8")
        text = FENCED.sub(lambda it: it[0].replace("#", HASH), text)
        parts = HEADING.split(text)
        found += [part for name, part in zip(parts[2::3], parts[3::3]) if name == title]
    if len(found) != 1:
        raise Refused(f"{len(found)} documents have a section '{title}', and a page wants one")
    return found[0].replace(HASH, "#").strip()


def of_help(part, text):
    """A part of a program's help, in Markdown."""
    said = help_of(text)
    if part == "options":
        rows = [f"`{it.spelled}` | {it.says}" for it in (*said.arguments, *said.options)]
    elif part == "statuses":
        rows = [f"{number} | {says}" for number, says in said.statuses]
    else:
        return {"usage": f"`{said.usage}`", "about": lowered(said.about)}[part]
    return "\n".join([" | ", "---|---", *rows])


def of_tool(part, tool):
    """What a tool in Python says of itself, in Markdown: all, or what it does in a few words."""
    parts = ast.get_docstring(ast.parse((ROOT / tool).read_text(encoding="utf-8"))).split("\n\n")
    if part == "summary":
        return lowered(parts[0].partition(".\n")[0].replace("\n", " ").removesuffix("."))
    return "\n\n".join(f"```\n{dedent(it)}\n```" if it.startswith(" ") else it.replace("\n", " ")
                       for it in parts)


def lowered(text):
    return text[0].lower() + text[1:]


# ---- words of a page


def spelled(text):
    """A text of Markdown, in the signs of man."""
    text = LINK.sub(r"\1", ASIDE.sub("", text))
    made, at = "", 0
    for it in SPAN.finditer(text):
        code, bold, slanted = it.groups()
        inner = f"\\fI{escaped(slanted)}\\fR" if slanted else f"\\fB{code_of(code or bold)}\\fR"
        made, at = made + escaped(text[at : it.start()]) + inner, it.end()
    return made + escaped(text[at:])


def escaped(text):
    return "".join(ESCAPES.get(it, it) for it in text)


def code_of(text):
    """Code, in which an apostrophe stays as it is."""
    return escaped(text.replace("`", "")).replace("'", r"\(aq")


def guarded(line):
    """A line that is no request."""
    return rf"\&{line}" if line.startswith((".", "'")) else line


def wrapped(text):
    """The lines of a paragraph."""
    lines = [""]
    for word in text.split():
        if lines[-1] and len(f"{lines[-1]} {word}") > WIDTH:
            lines.append("")
        lines[-1] += f" {word}" if lines[-1] else word
    return [guarded(it) for it in lines if it]


# ---- parts of a page


def code(lines):
    """A block of code. A line that is too long for the page's text is carried on by the next."""
    made = [".PP", ".RS 4", ".nf"]
    for line in lines:
        parts = [line]
        if len(code_of(line)) > WIDTH:
            parts = [line[at : at + PART] for at in range(0, len(line), PART)]
        *first, last = [guarded(code_of(it)) for it in parts]
        made += [*(rf"{it}\c" for it in first), last or r"\&"]
    return [*made, ".fi", ".RE"]


def table(lines):
    """A table as a list: of each row the first cell, and what the others say, by their heads."""
    head, _, *rows = [[it.strip() for it in line.split(" | ")] for line in lines]
    heads = [f"*{it.replace('`', '')}*" for it in head]
    made = entry(heads[0], "; ".join(heads[1:])) if any(head) else []
    for first, says, *others in rows:
        cells = [says, *(f"{name}: {it}" for name, it in zip(heads[2:], others))]
        made += entry(first, "; ".join(it for it in cells if it))
    return made


def entry(name, text):
    return [".TP", guarded(spelled(name)), *wrapped(spelled(text))]


def body(text):
    """The lines of a page for a text of Markdown, of which a paragraph is a line."""
    made, lines = [], text.split("\n")
    while lines:
        line = lines.pop(0)
        listed, heading = ITEM.match(line), HEADING.match(line)
        if line.startswith("```"):
            end = lines.index("```")
            made += code(lines[:end])
            del lines[: end + 1]
        elif lines and lines[0].startswith("---|"):
            end = next((at for at, it in enumerate(lines) if at and " | " not in it), len(lines))
            made += table([line, *lines[:end]])
            del lines[:end]
        elif heading:
            made.append(f'{".SH" if heading[1] == "##" else ".SS"} "{spelled(heading[2])}"')
        elif listed:
            mark = r"\(bu" if listed[1] == "-" else listed[1]
            made += [f".IP {mark} 4", *wrapped(spelled(listed[2]))]
        elif line.strip() and not line.startswith("!["):
            follows = next((it for it in lines if it), "")
            # (what is shown behind a colon is no picture in a page)
            text = f"{line[:-1]}." if line.endswith(":") and follows.startswith("![") else line
            made += [".PP", *wrapped(spelled(text))]
    # No paragraph begins where a section does.
    return [line for before, line in zip(["", *made], made)
            if line != ".PP" or not before.startswith((".SH", ".SS"))]


def page(name, version, date, help="", tool=""):
    """The manual page of a template, as 'fdb_audit.1', by a program's help or a tool's text."""

    def meant(it):
        if it[1] == "section":
            return section(it[2])
        return of_tool(it[1], tool) if it[1] in ("summary", "told") else of_help(it[1], help)

    template = (TEMPLATES / f"{name}.md").read_text(encoding="utf-8")
    title, _, number = name.rpartition(".")
    source = escaped(f"fdb-read-version {version}")
    head = f'.TH {escaped(title.upper())} {number} {date} "{source}"'
    # (neither are words parted, since code would be, nor are lines filled to one width)
    return "\n".join([head, ".nh", ".ad l", *body(installed(DIRECTIVE.sub(meant, template))), ""])
