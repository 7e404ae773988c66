"use strict";
// The page: what is typed, dragged and touched becomes a view, and Scene draws it.

const at = (id) => document.getElementById(id);
const drawing = JSON.parse(at("drawing").textContent), index = Scene.indexed(drawing);
const [figure, picture, band, space] = ["figure", "picture", "overview", "space"].map(at);
const all = (what) => [...document.querySelectorAll(what)];
const BAND = 44, LEAST_LANES = 120, LEAST_LANE = 60, count = drawing.faults.length;
let view = null, finds = [], closed = [], isDue = false, isPrinted = false;

function open(fault) {
  change(Scene.opened(drawing, fault));
  figure.scrollTop = 0;
  say(null);
  if (!drawing.faults[fault]) return;
  const { title, means, reason } = drawing.faults[fault];
  const said = { said: title, means, why: reason, count: `fault ${fault + 1} of ${count}` };
  for (const [id, text] of Object.entries(said)) at(id).textContent = text;
  all("#faults a").forEach((it, place) => {
    it.setAttribute("aria-current", place === fault);
    if (place === fault) at("faults").scrollTop = it.offsetTop - at("faults").offsetTop;
  });
}

function change(changed) {
  view = { ...view, ...changed };
  if (isDue) return;
  isDue = true;
  requestAnimationFrame(() => draw());
}

// What is drawn may bring a scrollbar, or take one away: then there is another width to draw it for.
function draw(tries = 2) {
  isDue = false;
  const width = Math.max(200, figure.clientWidth);
  const height = isPrinted ? Infinity : Math.max(LEAST_LANES, Math.round(window.innerHeight * 0.5));
  view = { ...view, width, height };
  const { shapes, height: seen, inner } = Scene.scene(index, isPrinted ? { ...view, top: 0 } : view);
  show(picture, shapes, width, seen);
  show(band, Scene.overview(index, view, BAND), width, BAND);
  figure.style.height = `${seen}px`;
  space.style.height = `${Math.max(0, inner - height)}px`;
  at("all").hidden = !mayFold();
  at("all").textContent = isFolded() ? "all clients" : "fold clients";
  // Of the key what can be seen now.
  all(".key li").forEach((it) => {
    const look = `.${[...it.querySelector("[class]").classList].join(".")}`;
    it.hidden = ![picture, band].some((svg) => svg.querySelector(look));
  });
  if (tries && Math.max(200, figure.clientWidth) !== width) draw(tries - 1);
}

function show(svg, shapes, width, height) {
  const sizes = { viewBox: `0 0 ${width} ${height}`, width, height };
  for (const [name, it] of Object.entries(sizes)) svg.setAttribute(name, it);
  svg.querySelector("g").innerHTML = Scene.markup(shapes);
}

// The place of the axis at a share of the window, and the window of the same size about a place.
function placeAt(share) {
  const [from, to] = [view.from, view.to].map((it) => Scene.bent(view.gaps, it));
  return Scene.straight(view.gaps, from + share * (to - from));
}

const isLeftOut = (place) => view.gaps.some(([from, to]) => from < place && place < to);

function centred(place) {
  const [from, to, about] = [view.from, view.to, place].map((it) => Scene.bent(view.gaps, it));
  const half = (to - from) / 2, free = { from: place - half, to: place + half, gaps: [] };
  return isLeftOut(place) ? free : Scene.moved(drawing, view, (about - from) / (to - from) - 0.5);
}

const zoom = (factor, about = placeAt(0.5)) => change(Scene.moved(drawing, view, 0, factor, about));
const move = (share) => change(Scene.moved(drawing, view, share));
const say = (call) => {
  at("words").textContent = call === null ? "" : Scene.wordsOf(drawing, view, call);
};

// Chooses a call, and shows its lane and its part of the axis where they are not in view.
function choose(call) {
  const lane = drawing.lane[call], left = drawing.left[call];
  const lanes = view.lanes.includes(lane) ? view.lanes : [...view.lanes, lane];
  const part = left >= view.from && left <= view.to && !isLeftOut(left) ? {} : centred(left);
  const { top, slot } = Scene.laidOut(index, { ...view, ...part, lanes }).places.get(lane);
  const few = view.few && slot(drawing.row[call]) !== undefined;
  change({ ...part, lanes, few, chosen: call });
  const isSeen = top >= figure.scrollTop && top + LEAST_LANE <= figure.scrollTop + view.height;
  if (!isSeen) requestAnimationFrame(() => { figure.scrollTop = top; });
  say(call);
}

// The call before or after the chosen one, of the lanes in view.
function step(by) {
  const calls = Scene.within(drawing, index.all, view.from, view.to)
    .filter((it) => view.lanes.includes(drawing.lane[it]));
  const place = calls.indexOf(view.chosen);
  const next = calls[place < 0 ? (by > 0 ? 0 : calls.length - 1) : place + by];
  if (next !== undefined) choose(next);
}

const turn = (by) => { if (count) go((view.fault + by + count) % count); };

function go(fault) {
  location.hash = `#fault-${fault + 1}`;
  follow();
}

function follow() {
  const named = /^#fault-(\d+)$/.exec(location.hash);
  open(count ? (named ? Number(named[1]) - 1 : 0) : null);
}

// Whether something is left out now, and whether a fault's view, or the first one, does so.
const isFolded = () => view.few || view.lanes.length < drawing.lanes.length;

function mayFold() {
  const { lanes, few } = Scene.opened(drawing, view.fault);
  return lanes.length < drawing.lanes.length || (few && index.rows.some((it) => it > 1));
}

// The lanes of a fault stay where they are, and others come below them.
function unfold() {
  const { lanes, few } = Scene.opened(drawing, view.fault), every = drawing.lanes.map((_, lane) => lane);
  change(isFolded() ? { lanes: [...new Set([...lanes, ...every])], few: false } : { lanes, few });
}

const KEYS = {
  ArrowLeft: () => move(-0.2), ArrowRight: () => move(0.2), "+": () => zoom(0.5), "=": () => zoom(0.5),
  "-": () => zoom(2), 0: () => change({ from: drawing.from, to: drawing.to, gaps: [] }),
  n: () => step(1), p: () => step(-1), f: () => turn(1), F: () => turn(-1), a: unfold,
  Home: () => open(view.fault),
  "?": () => { if ((at("help").open = !at("help").open)) at("help").scrollIntoView(); },
};

document.addEventListener("keydown", (event) => {
  const isTyped = event.target.tagName === "INPUT" || event.isComposing;
  if (isTyped || event.ctrlKey || event.metaKey || event.altKey || !KEYS[event.key]) return;
  event.preventDefault();
  KEYS[event.key]();
});

function placeOf(event, svg) {
  const box = svg.getBoundingClientRect(), share = (event.clientX - box.left) / box.width;
  return svg === picture ? placeAt(share) : drawing.from + share * (drawing.to - drawing.from);
}

// One pointer drags, two zoom; one that stays where it is chooses, within a square of 44 pixels, since
// fingers are no points. On the overview the window comes along, unless a fault's mark is opened.
const pointers = new Map(), STILL = 4, TOUCHED = [0, -8, 8, -16, 16, -22, 22];
const near = ({ clientX, clientY }, what) => TOUCHED
  .flatMap((y) => TOUCHED.map((x) => document.elementFromPoint(clientX + x, clientY + y)))
  .map((it) => it && it.dataset[what]).find((it) => it);
const centre = (event) => change(centred(placeOf(event, band)));

function wheel(event) {
  event.preventDefault();
  if (event.shiftKey) return figure.scrollBy(0, event.deltaX + event.deltaY);
  if (Math.abs(event.deltaX) > Math.abs(event.deltaY)) return move(event.deltaX / view.width);
  const factor = Math.exp(Math.max(-1, Math.min(1, event.deltaY / 300)));
  zoom(factor, event.currentTarget === picture ? placeOf(event, picture) : placeAt(0.5));
}

function down(event) {
  const { clientX, clientY, currentTarget, pointerId, pointerType } = event;
  const fault = currentTarget === band && (pointerType === "touch" ? near(event, "fault") :
    event.target.dataset.fault);
  if (fault) return go(Number(fault));
  pointers.set(pointerId, { clientX, clientY, begun: event });
  currentTarget.setPointerCapture(pointerId);
  if (currentTarget === band) centre(event);
}

function drag(event) {
  const before = pointers.get(event.pointerId), { clientX, clientY } = event, { call } = event.target.dataset;
  if (!before) return call !== undefined && view.chosen === null && say(Number(call));
  pointers.set(event.pointerId, { ...before, clientX, clientY });
  if (event.currentTarget === band) return centre(event);
  const other = [...pointers].find(([it]) => it !== event.pointerId);
  if (!other) {
    figure.scrollBy(0, before.clientY - clientY);
    return move((before.clientX - clientX) / view.width);
  }
  const gap = (it) => Math.max(8, Math.abs(it.clientX - other[1].clientX));
  zoom(gap(before) / gap(event), placeOf(other[1], picture));
}

function up(event) {
  const { clientX, clientY, pointerId } = event, { begun } = pointers.get(pointerId) || {};
  pointers.delete(pointerId);
  const way = begun && Math.hypot(clientX - begun.clientX, clientY - begun.clientY);
  if (event.currentTarget !== picture || !begun || way >= STILL) return;
  const under = document.elementFromPoint(clientX, clientY), call = near(event, "call");
  if (under && under.classList.contains("unfold")) unfold();
  else if (call) choose(Number(call));
}

for (const svg of [picture, band]) {
  const handlers = { wheel, pointerdown: down, pointermove: drag, pointerup: up,
    pointercancel: (event) => pointers.delete(event.pointerId) };
  for (const [name, it] of Object.entries(handlers)) svg.addEventListener(name, it, { passive: false });
}

figure.addEventListener("scroll", () => change({ top: figure.scrollTop }));
window.addEventListener("resize", () => change({}));
window.addEventListener("hashchange", follow);
// On paper nothing can be unfolded, and all lanes of the view are drawn.
const printing = (is, details) => {
  isPrinted = is;
  details.forEach((it) => { it.open = is; });
  draw();
};
window.addEventListener("beforeprint", () => printing(true, closed = all("details:not([open])")));
window.addEventListener("afterprint", () => printing(false, closed));

const BUTTONS = { in: "+", out: "-", whole: "0", reset: "Home", all: "a", next: "f", last: "F", ask: "?" };
for (const [id, key] of Object.entries(BUTTONS)) {
  if (at(id)) at(id).addEventListener("click", KEYS[key]);
}

at("find").addEventListener("submit", (event) => {
  event.preventDefault();
  const text = at("wanted").value;
  if (finds.text !== text) finds = Object.assign(Scene.found(index, view, text), { text, next: 0 });
  at("words").textContent = `There is no client, version or line ${text}.`;
  if (finds.length) choose(finds[finds.next++ % finds.length]);
});

document.body.classList.add("alive");
follow();
