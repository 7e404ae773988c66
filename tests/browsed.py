"""What the code of a picture's page draws, with node and in a browser, where they are."""
import html
import itertools
import json
import re
import resource
import shutil
import tempfile

from harness import DONE, ROOT, TRIES, run
from picture import (
    HAND, TOOLS, differing, drawn, drawings, lines_text, logged, logs, other_line, page_of, texts,
)

NODE = shutil.which("node")
BROWSERS = ("chromium", "chromium-browser", "google-chrome", "chrome")
BROWSER = next(filter(None, map(shutil.which, BROWSERS)), None)
BROWSER_WORDS = ["--headless", "--no-sandbox", "--disable-gpu"]
# What the largest log may take: of processor time some thirty times what it does, since machines
# differ and others are busy; so may its page until it is drawn; and how many shapes a view of it
# has. What goes over all calls for each of them takes hours.
CALLS, SECONDS, BYTES, OPENS, SHAPES = 100_000, 60, 25_000_000, 60, 5_000
# How many faults a log has whose clients learn, and what is asked of logs that are made here.
LEARNS = 8_000
ASKED_FOR = {"complete": None, "margin": 0, "by_key": False, "members": []}


# ---- with node


def columns_of(drawing, kept={}):
    """The data of a drawing, which is kept with it."""
    if id(drawing) not in kept:
        kept[id(drawing)] = drawing, drawings.columns_of(drawing)
    return kept[id(drawing)][1]


def scenes_of(drawing, calls):
    """What calls of the page's code answer, and how long they take."""
    given = [json.dumps(columns_of(drawing)), calls]
    words = [NODE, f"{ROOT}/tests/scenes.js", f"{TOOLS}/picture_scene.js"]
    ran = run(words, json.dumps(given).encode())
    if ran.status != DONE:
        raise ValueError(f"node ended with {ran.status}: {ran.err[-300:]!r}")
    return json.loads(ran.out)


def view(drawing, width, fault=0, **changed):
    """The view that a fault of a drawing opens with, or without one the whole."""
    columns, fault = columns_of(drawing), fault if drawing.faults else None
    whole = {**columns, "lanes": [*range(len(columns["lanes"]))], "gaps": []}
    shown = whole if fault is None else columns["faults"][fault]
    return {**{name: shown[name] for name in ("from", "to", "lanes", "gaps")}, "fault": fault,
            "few": fault is not None, "chosen": None, "top": 0, "width": width, "height": 500,
            **changed}


def shape_line(shape):
    """A shape in a line, as the scenes worked out by hand have it."""
    tag = "rect" if shape["tag"] == "bar" else shape["tag"]
    names = ("d", "x", "y", "width", "text", "marker-end")
    return " ".join([tag, shape["class"], *(str(shape[it]) for it in names if it in shape)])


# Of the lines of a scene those that are worked out by hand: all but ticks, or what is of the path.
SHOWN = {"scene": re.compile(r"(?!text tick (?!first)|.*v4$)"),
         "near": re.compile(r"text version|path (path|arrow)|text label on-path")}
# What needs no sign: names, words of calls and ticks, the edges of lanes, and what is behind all.
PLAIN = {"name", "show", "tick", "first", "lane", "ground", "unfold", "turn0", "turn1", "down",
         "version"}
WIDTHS = (400, 1200)


def read_at(client, version, began, ended):
    return {"client": client, "read": version, "began": began, "ended": ended}


def log_of(*calls):
    return logged(lines_text([read_at(*it) for it in calls]))


LOG, RUN, ALL_FAULTS, FAR = (HAND[it][1] for it in (
    "a log", "a run", "each kind of fault", "a witness that is far away"))
# Three calls that are too near to be told apart; a stale read beside five others; many clients.
NEAR = log_of(("a", 1, 0, 1), ("a", 1, 1, 2), ("a", 1, 2, 3), ("b", 1, 0, 3000))
BESIDE = log_of(("a", 200, 1, 2), *(("b", 200, 50 + at, 90) for at in range(5)), ("b", 100, 60, 70))
MANY = log_of(*((f"c{at}", 1, at, at + 1) for at in range(201)))
KEYED = logged("\n".join(
    f'{{"client":"a","{kind}":{at},"began":{at},"ended":{at}4,"key":{key}}}'
    for kind, at, key in (("commit", 3, 7), ("commit", 2, 8), ("read", 9, 7))), "--key", "key")
WHOLE = {it: drawings.columns_of(LOG)[it] for it in ("from", "to")}
PART = {"from": 20, "to": 30, "gaps": []}
ROLES = LOG.faults[0].roles


def having(name, look):
    """What the shapes of a look have under a name."""
    return lambda scene: [it[name] for it in scene["shapes"] if it["class"].startswith(look)]


def all_of(*looks):
    """How many shapes there are of each look."""
    return lambda scene: [len(having("class", it)(scene)) for it in looks]


# Calls of the page's code on a drawing, what of each answer is looked at, and what is wanted.
ASKED = (
    (LOG, ["found", PART, "300"], None, [1, 4, 6]),
    (LOG, ["found", PART, "CLIENT c"], None, [2]),
    (LOG, ["found", {"from": 31, "to": 40}, "c"], None, [2, 4, 3, 5]),
    (LOG, ["found", {"from": 41, "to": 45}, "c"], None, [6, 4, 3, 5]),
    (LOG, ["found", PART, "zzz"], None, []),
    (LOG, ["found", PART, " Line  4"], None, [3]),
    (LOG, ["found", PART, "4"], None, [3]),
    (log_of(("a", 1549304, 1, 2)), ["found", PART, "1,549,304"], None, [0]),
    (RUN, ["found", PART, "Notissued"], None, [5]),
    (LOG, ["opened", None], lambda it: it["lanes"], [0, 1, 2, 3]),
    (MANY, ["opened", None], lambda it: it["lanes"], [*range(200)]),
    (LOG, ["moved", PART, 0, 0.5, 22], None, {"from": 21, "to": 26}),
    (LOG, ["moved", PART, 0, 100, 22], lambda it: f"{it['from']:.6f}", f"{WHOLE['from']:.6f}"),
    (LOG, ["moved", PART, -100], None, {"from": WHOLE["from"], "to": WHOLE["from"] + 10}),
    (LOG, ["markup", [{"tag": "text", "x": 4, "words": '<b>&"', "text": "</g>&amp;"},
                      {"tag": "bar", "class": '"', "call": 3, "words": "</title>"}]], None,
     '<text x="4"><title>&lt;b&gt;&amp;&quot;</title>&lt;/g&gt;&amp;amp;</text>'
     '<rect class="&quot;" data-call="3" role="img"><title>&lt;/title&gt;</title></rect>'),
    (LOG, ["scene", view(LOG, 520.8, lanes=[0, 1, 2, 3])],
     lambda it: sorted(having("words", "bar")(it)),
     sorted(f"{ROLES[at]}: {it.words}" if at in ROLES else it.words
            for at, it in enumerate(LOG.lines))),
    (LOG, ["scene", view(LOG, 10)], having("call", "bar read faulty"), [3]),
    (LOG, ["scene", view(LOG, 500, **{**PART, "from": 0, "to": 44})],
     having("text", "label on-path"), [
         "line 1: commit 200", "100 was outdated at 14: 35 too late"]),
    # (a call whose end is not known goes to the edge of a window that begins behind it)
    (LOG, ["scene", view(LOG, 500, **{**PART, "from": 40, "to": 90})],
     having("width", "bar report open"), [505]),
    # (moments at the axis, at the width that they are worked out for, and at half of it)
    (LOG, ["scene", view(LOG, 520.8)],
     lambda it: having("x", "tick ")(it)[:3], [50.4, 100.4, 150.4]),
    (LOG, ["scene", view(LOG, 260)],
     lambda it: having("text", "tick ")(it)[:3], ["10", "20", "30"]),
    # (20 pixels for each unit, but for the gap)
    (FAR, ["scene", view(FAR, 863.04)], having("text", "tick"), [
        "7,999,985 left out", "1,000,003", "+5", "+10", "+8,000,000", "+8,000,005", "+8,000,010"]),
    (FAR, ["scene", view(FAR, 863.04)], lambda it: having("width", "bar")(it)[::2], [200, 200]),
    (FAR, ["straight", [[10, 20, 5], [30, 90, 10]], 15], None, 20),
    (FAR, ["straight", [[10, 20, 5], [30, 90, 10]], 30], None, 60),
    (NEAR, ["scene", {**view(NEAR, 306), "from": 0, "to": 3060}], having("words", "block"),
     ["3 calls, from line 1 to line 3"]),
    (BESIDE, ["scene", view(BESIDE, 800)], lambda it: having("text", "name")(it)[-1:],
     ["client b, and 2 more at once"]),
    (BESIDE, ["scene", view(BESIDE, 800)], having("call", "bar read faulty"), [6]),
    # (the other call of a version that two drew, and what joins both)
    (ALL_FAULTS, ["scene", view(ALL_FAULTS, 300, 4)],
     lambda it: [having("call", f"bar ask {look}")(it) for look in ("faulty", "on-path")],
     [[4], [5]]),
    (ALL_FAULTS, ["scene", view(ALL_FAULTS, 300, 4)],
     having("d", "path beside"), ["M100 62L100 130"]),
    (ALL_FAULTS, ["overview", view(ALL_FAULTS, 900), 44],
     lambda it: [shape["fault"] for shape in it if "mark" in shape["class"]], [7, 3, 2, 1, 0]),
    (ALL_FAULTS, ["overview", view(ALL_FAULTS, 900, 5), 44],
     lambda it: [shape["fault"] for shape in it if shape["class"] == "mark now"], [5]),
    (KEYED, ["scene", view(KEYED, 900)], lambda it: sorted(having("text", "label")(it)),
     ['commit 2 · "8"', 'commit 3 · "7"', 'read 9 · "7"']),
    # (all calls of a run have a caption, and that of the last of a round does not leave it)
    (RUN, ["scene", view(RUN, 600)], having("text", "label"), [
        "ask 100", "ask 200", "report 200 locks", "tell to 1", "locked out 200", "report 100",
        "read 100", "NotIssued", "learn from 0", "read 0 min"]),
    (RUN, ["scene", view(RUN, 600)], lambda it: having("x", "label")(it)[-2], 371.5),
    (RUN, ["scene", view(RUN, 600)],
     all_of("round", "band locked", "bar locked", "bar refused"), [2, 1, 1, 1]),
    (RUN, ["scene", view(RUN, 600)],
     having("text", "tick first"), ["round 0", "round 2", "in order →"]),
    (RUN, ["scene", view(RUN, 600)], having("text", "version"), ["100", "200 locked"]),
)


def scenes(_program):
    """Where the page's code draws this, in pixels: compared with what was worked out by hand."""
    if not NODE:
        print("(no node here: what the page's code draws is not looked at) ", end="")
        yield "without node", None
        return
    for name, (_text, drawing, parts) in HAND.items():
        for title in (it for it in parts if it.startswith(tuple(SHOWN))):
            what, width = title.split()
            scene = scenes_of(drawing, [["scene", view(drawing, float(width))]])[0][0]
            found = filter(SHOWN[what].match, map(shape_line, scene["shapes"]))
            yield f"{name}, {title}", other_line(sorted(found), sorted(parts[title]))
            kinds = [it["class"].split()[0] for it in scene["shapes"]]
            is_first = kinds.index("path") < kinds.index("label")
            yield f"{name}: no line goes over a label", None if is_first else "one does"
    of = {id(drawing): drawing for drawing, *_ in ASKED}
    answers = {at: iter(scenes_of(it, [call for one, call, *_ in ASKED if one is it])[0])
               for at, it in of.items()}
    for drawing, call, part, wanted in ASKED:
        answer = next(answers[id(drawing)])
        yield f"{call}"[:80], differing("answer", part(answer) if part else answer, wanted)
    log_view = view(LOG, 520.8, few=False, chosen=1, lanes=[0, 1, 2])
    of_log = scenes_of(LOG, [["scene", log_view], ["overview", log_view, 44]])[0]
    of_run = scenes_of(RUN, [["scene", view(RUN, 580)]])[0][0]
    shapes = [*of_run["shapes"], *of_log[0]["shapes"], *of_log[1]]
    known = re.findall(r'class="(.*?)"', page_of.key(LOG) + page_of.key(RUN))
    known = PLAIN.union(*map(str.split, known))
    unknown = {look for it in shapes for look in it["class"].split()} - known
    yield "the key has what is drawn", differing("it lacks", unknown, set())


def crowds():
    """Logs whose last call is a stale read: of one client of many with long names, large versions
    and times, of one that knew it by itself, and of one that did something else meanwhile, so that
    two labels stand between its rows.
    """
    worker = lambda client, kind, version, began: {
        "client": f"worker {client} of a rather long name", kind: 10**15 + version,
        "began": 10**15 + began, "ended": 10**15 + began + 4}
    yield [*(worker(at, "commit", at, 9 * at) for at in range(60)), worker(40, "read", 0, 600)]
    yield [worker(0, "commit", 9, 10), worker(0, "read", 0, 15)]
    yield [{"client": "a", "commit": 120, "began": 10, "ended": 20},
           {"client": "b", "read": 120, "began": 30, "ended": 50},
           {"client": "b", "read": 110, "began": 35, "ended": 45}]


def meeting(scene, width):
    """Texts of a scene that run into one another or over its edges, of letters of a wide font."""
    boxes = []
    for it in (it for it in scene["shapes"] if it["tag"] == "text"):
        size = len(it["text"]) * (8.4 if re.search("on-path|version", it["class"]) else 7.7)
        left = it["x"] - size / 2 * bool(re.match("label|tick $", it["class"]))
        boxes.append((it["text"], it["y"], left, left + size))
    yield from (it for it in boxes if it[2] < -1 or it[3] > width + 1)
    for (one, y, *ends), (two, at, *its) in itertools.combinations(boxes, 2):
        if abs(at - y) < 9 and ends[0] < its[1] and its[0] < ends[1]:
            yield one, two


def readable(_program):
    """In views of each fault, narrow and wide, its calls are marked, and all texts can be read."""
    shown = {name: drawn(text) for name, text in texts() if name.startswith("examples/")}
    shown |= {name: drawing for name, (_text, drawing, _parts) in HAND.items()}
    shown |= {name: drawing for name, _text, _words, drawing in logs()}
    shown |= {f"crowd {at}": logged(lines_text(it)) for at, it in enumerate(crowds())}
    for name, drawing in shown.items() if NODE else ():
        faults = [(it.title, [it.at]) for it in drawing.faults] or [("no fault", [])]
        views = [view(drawing, width, at) for at in range(len(faults)) for width in WIDTHS]
        answers, _ = scenes_of(drawing, [["scene", it] for it in views])
        for at, (seen, scene) in enumerate(zip(views, answers)):
            (title, faulty), wrong = faults[at // len(WIDTHS)], [*meeting(scene, seen["width"])]
            marked = [it["call"] for it in scene["shapes"] if "faulty" in it["class"].split()]
            fault = differing("calls", sorted(marked), sorted(faulty))
            yield f"{name}, {title}", fault or (f"{wrong} meet" if wrong else None)
    yield "those that node is asked of", None


# ---- the largest log


def largest():
    """A log of 100,000 calls of 1,000 clients, and what is said of it: the last one is stale."""
    call = lambda at, kind, version: {
        "client": f"c{at % 1000}", kind: version, "began": 10 * at, "ended": 10 * at + 9}
    lines = [call(at, "read" if at % 3 else "commit", 100 + at // 3) for at in range(CALLS - 1)]
    lines.append(call(CALLS, "read", 100))
    at, by = ({"line": it + 1, **lines[it]} for it in (CALLS - 1, CALLS - 2))
    fault = {"fault": "Order", "at": at, "reason": "known", "known": by["read"], "by": by,
             "means": "ended"}
    total = {"total": {"lines": CALLS}, "arguments": ASKED_FOR}
    return map(lines_text, (lines, (fault, total, {"faults": 1})))


def learning():
    """A log without times of which a third is at fault, for each of two reasons: what a client
    learnt, and another call of which it may have. Each time what is said of it."""
    of = lambda what: [what(at) for at in range(LEARNS)]
    heard = of(lambda at: {"client": f"a{at % 9}", "ask": at + 1})
    heard += of(lambda at: {"client": f"b{at}", "learn": f"a{at % 9}"})
    heard += of(lambda at: {"client": f"b{at}", "ask": at + 1})
    told = [{"client": "a", "commit": 2}, *of(lambda at: {"client": f"b{at}", "learn": "a"})]
    told += of(lambda at: {"client": f"b{at}", "read": 1})
    for lines, fault, members in (
        (heard, {"fault": "Twice", "reason": "drawn"}, lambda at: {"drawn": at - 2 * LEARNS}),
        (told, {"fault": "Order", "reason": "known", "known": 2, "means": "learnt"},
         lambda at: {"by": 0, "teller": at - LEARNS}),
    ):
        numbered = [{"line": at, **it} for at, it in enumerate(lines, 1)]
        said = [{**fault, **{name: numbered[it] for name, it in (*members(at).items(), ("at", at))}}
                for at in range(len(lines) - LEARNS, len(lines))]
        said += [{"total": {"lines": len(lines)}, "arguments": ASKED_FOR}, {"faults": LEARNS}]
        yield lines_text(lines), lines_text(said)


def processor_time():
    return resource.getrusage(resource.RUSAGE_SELF).ru_utime


def large(_program):
    """A log of 100,000 calls is drawn at once, and so is its page; its views have few shapes."""
    for text, said in learning():
        before = processor_time()
        count, took = len(logged(text, said=said).faults), processor_time() - before
        is_right = count == LEARNS and took < SECONDS / 2
        yield "learns", None if is_right else f"{count} faults in {took:.1f} seconds"
    text, said = largest()
    before = processor_time()
    drawing = logged(text, said=said)
    written = page_of.page(drawing)
    took = processor_time() - before
    is_right = len(drawing.lines) == CALLS and took < SECONDS and len(written) < BYTES
    yield "its page", None if is_right else f"{took:.1f} seconds, {len(written)} bytes"
    whole = {"from": 0, "to": 10 * CALLS, "lanes": [*range(200)], "fault": None}
    views = [view(drawing, 1000, **it) for it in ({}, whole, {**whole, "from": 5_000, "to": 9_000})]
    answers, took = scenes_of(drawing, [["scene", it] for it in views]) if NODE else ([], 0)
    yield "how long its views take", None if took < OPENS else f"{took:.1f} seconds"
    for at, scene in enumerate(answers):
        count = len(scene["shapes"])
        labels = [(it["x"], int(it["text"])) for it in scene["shapes"] if it["class"] == "version"]
        room = min((two[0] - one[0] for one, two in zip(labels, labels[1:])), default=99)
        is_right = count < SHAPES and labels and labels == sorted(labels) and room > 20
        yield f"view {at}", None if is_right else f"{count} shapes, {room} pixels, {labels}"


# ---- where a browser is, pages are opened in it, and clicked and typed at


# All is drawn at once, so that no frame has to be waited for, errors are kept, and pointers that a
# script makes up may be captured.
AT_ONCE = """<body><script>window.requestAnimationFrame = (draw) => draw(); window.errors = [];
window.addEventListener("error", (event) => errors.push(event.message));
Element.prototype.setPointerCapture = () => {};
const answer = (it) => { document.body.insertAdjacentHTML("beforeend", "<pre id='driven'></pre>");
  document.getElementById("driven").textContent = JSON.stringify(it); };</script>"""
DRIVER = """<script>
const at = (id) => document.getElementById(id), said = (id) => (at(id) || {}).textContent;
const all = (what) => [...document.querySelectorAll(what)];
const place = (it) => it.getBoundingClientRect();
const press = (key, more) =>
  document.dispatchEvent(new KeyboardEvent("keydown", { key, bubbles: true, ...more }));
const type = (key) =>
  at("wanted").dispatchEvent(new KeyboardEvent("keydown", { key, bubbles: true }));
const point = (kind, what, down = 0) => {
  const it = document.querySelector(what), { left, top, width, height } = place(it);
  const more = { clientX: left + width / 2, clientY: top + height / 2 + down, bubbles: true };
  it.dispatchEvent(new PointerEvent(kind, { pointerId: 1, ...more }));
};
const middle = () => { const { left, width } = place(at("overview").querySelector(".window"));
  return Math.round(left + width / 2); };
const wheel = (id, clientX) => at(id).dispatchEvent(
  new WheelEvent("wheel", { deltaY: -200, clientX, cancelable: true }));
function state() {
  const bars = all("#picture [data-call]");
  return {
    calls: bars.map((it) => it.dataset.call).sort().join(""), path: all("#picture .path").length,
    faulty: all("#picture .faulty").map((it) => it.dataset.call).join(""),
    seen: bars.every((it) => place(it).height > 0) &&
      document.documentElement.scrollWidth <= innerWidth,
    buttons: all(".views button").map((it) => [it.textContent, place(it).left, place(it).top]),
    said: ["why", "words"].map(said),
    key: all(".key li").filter((it) => !it.hidden).map((it) => it.textContent.trim()), errors,
    high: place(at("picture")).bottom <= innerHeight };
}
answer([STEPS.map((step) => { eval(step); return state(); }),
  CHECKS.map((it) => { let kept; const found = eval(it); return found; })]);
</script>"""
# What is done one after another, and then: calls drawn, links of the fault, the call at fault, what
# is said of the fault, and the words of a call that is chosen.
KNOWN, LATER = "but 200 was known: line 1", "which was reported only after this"
STEPS = (
    ("", "012", 1, "1", KNOWN, ""),
    ("at('all').click()", "012", 1, "1", KNOWN, ""),
    ("at('whole').click()", "0123456", 1, "1", KNOWN, ""),
    ("at('all').click()", "01236", 1, "1", KNOWN, ""),
    ("press('n')", "01236", 1, "1", KNOWN, 'Shows 200: Line 1: client "a" committed 200'),
    ("press('n')", "01236", 1, "1", KNOWN, 'At fault: Line 2: client "b" read 100'),
    ("at('wanted').value = 'client c'; at('find').requestSubmit()", "012346", 1, "1", KNOWN,
     'Line 5: client "c" drew 250, from 30 to 31. Known or drawn before it: 300.'),
    ("press('f')", "1236", 1, "2", LATER, ""),
    ("press('F')", "012", 1, "1", KNOWN, ""),
    ("point('pointerdown', '[data-fault=\"7\"]')", "346", 1, "6", "which line 5", ""),
    ("at('reset').click()", "346", 1, "6", "which line 5", ""),
)
# Signs that the page opens with, and one that a choice brings.
AT_FIRST = {"call at fault", "overview: a fault, which a click opens"}
CHOSEN = ("call that is chosen", 4)
# What is true one after another: what the pointer passes over is read until a call is chosen, by a
# pointer that is near to it; the wheel over the overview leaves its middle; keys that are held or
# typed do nothing; the help opens by its key; and on paper all lanes are there.
CHECKS = (
    "point('pointermove', '[data-call=\"4\"]'); said('words').includes('Line 5')",
    "point('pointerdown', '[data-call=\"6\"]', 20); point('pointerup', '[data-call=\"6\"]', 20); "
    "said('words').includes('At fault: Line 7')",
    "point('pointermove', '[data-call=\"4\"]'); said('words').includes('At fault: Line 7')",
    "press('0'); press('+'); kept = middle(); wheel('overview', 5); Math.abs(kept - middle()) < 2",
    "kept = said('words'); press('n', { ctrlKey: true }); press('n', { metaKey: true }); "
    "type('n'); said('words') === kept",
    "press('?'); at('help').open",
    "press('?'); !at('help').open",
    "press('Home'); all('#picture .show')[0].textContent === '2 other clients: show'",
    "at('all').click(); dispatchEvent(new Event('beforeprint')); at('help').open && "
    "all('#picture .name').length === 4 && !all('#picture .show').length && errors.length === 0",
)
# A call in the part of the axis that a fault leaves out is shown where it is found.
FOUND_IN_GAP = (
    "kept = all('#picture .gap').length; at('wanted').value = '2'; at('find').requestSubmit(); "
    "kept === 1 && !all('#picture .gap').length && all('#picture .chosen').length === 1")
# Of a log of so many clients that the page and the picture scroll: the width that is drawn for, and
# that the lanes that are not in view come on paper, with what is said of others.
SCROLLED = """<script>
const width = document.getElementById("picture").getAttribute("width");
const lanes = () => document.querySelectorAll("#picture .name:not(.show)").length;
const found = [width === String(document.getElementById("figure").clientWidth), lanes() < 20];
dispatchEvent(new Event("beforeprint"));
const folded = document.querySelector("#picture .show").textContent;
answer([[], [...found, lanes() === 200, folded === "1 other client: show"]]);
</script>"""


def answered(page, behind, words=()):
    """What a script behind a page answers, or what the browser said in place of that."""
    page = page.replace("<body>", AT_ONCE).replace("</body>", f"{behind}</body>")
    folder = tempfile.mkdtemp()
    try:
        with open(f"{folder}/page.html", "w", encoding="utf-8") as it:
            it.write(page)
        words = [*BROWSER_WORDS, *words, "--window-size=500,800", "--dump-dom", it.name]
        # A browser on a busy machine may give up, and leave its own folder locked.
        for at in range(TRIES):
            ran = run([BROWSER, f"--user-data-dir={folder}/{at}", *words])
            answer = re.search(r'<pre id="driven">(.*)</pre>', ran.out.decode())
            if answer:
                return json.loads(html.unescape(answer[1])), None
        return ([], []), f"it did not end: {ran.err[-300:]!r}"
    finally:
        # (what it started may still write there)
        shutil.rmtree(folder, ignore_errors=True)


def browsed(_program):
    """A page in a browser: what it opens with, and what keys and clicks make of it."""
    if not BROWSER:
        print("(no browser here: no page is opened) ", end="")
        yield "without a browser", None
        return
    driver = DRIVER.replace("STEPS", json.dumps([it[0] for it in STEPS]))
    driver = driver.replace("CHECKS", json.dumps(CHECKS))
    (answer, checks), fault = answered(page_of.page(ALL_FAULTS), driver, ["--hide-scrollbars"])
    yield "the page", fault
    for at, (found, (do, *wanted, why, words)) in enumerate(zip(answer, STEPS)):
        states = [found[it] for it in ("calls", "path", "faulty", "seen", "buttons", "errors")]
        wanted += [True, answer[0]["buttons"], []]
        is_said = why in found["said"][0] and words in found["said"][1] and (at or found["high"])
        fault = differing("calls, path, fault, seen, buttons", states, wanted)
        fault = fault or (None if is_said else f"it says {found['said']}, high: {found['high']}")
        yield f"step {at}: {do}", fault
    if answer:
        (sign, step), key = CHOSEN, answer[0]["key"]
        is_right = AT_FIRST <= {*key} and sign not in key and sign in answer[step]["key"]
        yield "its key", None if is_right else f"{key}"
    for check, found in zip(CHECKS, checks):
        yield check, None if found is True else f"{found}"
    driver = DRIVER.replace("STEPS", "[]").replace("CHECKS", json.dumps([FOUND_IN_GAP]))
    (_, checks), fault = answered(page_of.page(FAR), driver)
    yield "a call in a part that is left out", fault or (None if checks == [True] else f"{checks}")
    (_, checks), fault = answered(page_of.page(MANY), SCROLLED)
    yield "many clients", fault or (None if checks == [True] * 4 else f"{checks}")
