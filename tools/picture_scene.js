"use strict";
// What stands where at a view of a drawing, in pixels: lists of shapes, and no document.

const HEAD = 34, ROUNDS = 18, NAME = 20, ROW = 48, BAR = 16, FOOT = 24, LATE = 22, OTHERS = 44;
// Letters are taken as wide as digits of a wide font. A bar of fewer pixels than NARROW may be drawn
// with others, and one of which fewer than SEEN are in view has no label.
const LETTER = 7.7, BOLD = 8.4, LEAST = 5, NARROW = 7, SEEN = 3, TIP = 18;
const BELOW = BAR + 13, ABOVE = -4;
// Of a client that does more than FEW things at once, a fault's view shows so many rows.
const MOST_ARROWS = 100, FEW = 4;
// Pixels beyond which nothing needs to be told apart, and how few there are for one more line.
const FAR = 1e6, TIGHT = 6, NAMELESS = "callers without a name";

// Adds to a drawing what its views need: the calls of all and of each lane, by their begins.
function indexed(drawing) {
  const all = drawing.left.map((_, it) => it).sort((a, b) => drawing.left[a] - drawing.left[b] || a - b);
  const calls = drawing.lanes.map(() => []);
  for (const it of all) calls[drawing.lane[it]].push(it);
  const rows = calls.map((its) => its.reduce((most, it) => Math.max(most, drawing.row[it] + 1), 1));
  return { drawing, all, calls, rows };
}

const endOf = ({ right }, it) => (right[it] === null ? Infinity : right[it]);

// Calls of a list that may be seen in a window.
const within = (drawing, list, from, to) =>
  list.filter((it) => drawing.left[it] <= to && endOf(drawing, it) >= from);

const faultOf = (drawing, { fault }) => (fault === null ? null : drawing.faults[fault]);
const headOf = ({ rounds }) => HEAD + (rounds.length ? ROUNDS : 0);

// Where each lane that is shown stands, and how high all of it is. A lane has its rows, or, where the
// view is of a fault, the first few of those that are in use there: the rows of its calls come first.
function laidOut(index, view) {
  const { drawing } = index;
  let top = 0;
  const places = new Map(view.lanes.map((lane) => {
    const calls = within(drawing, index.calls[lane], view.from, view.to);
    const place = { lane, top, calls, ...rowsOf(index, view, lane, calls) };
    top += NAME + ROW * place.rows;
    return [lane, place];
  }));
  const folded = drawing.lanes.length - view.lanes.length;
  return { places, folded, height: top + (folded ? OTHERS : 0) };
}

// Which row of a lane stands at which of its slots, how many slots there are, and rows that have none.
function rowsOf(index, view, lane, calls) {
  const { drawing } = index;
  if (!view.few) return { slot: (row) => row, rows: index.rows[lane], hidden: 0 };
  const named = [...rolesIn(drawing, view).keys()].filter((it) => drawing.lane[it] === lane)
    .map((it) => drawing.row[it]);
  const others = calls.map((it) => drawing.row[it]).sort((a, b) => a - b);
  const used = [...new Set([...named, ...others])];
  const kept = used.slice(0, Math.max(FEW, new Set(named).size)).sort((a, b) => a - b);
  const slots = new Map(kept.map((row, at) => [row, at]));
  return { slot: (row) => slots.get(row), rows: Math.max(1, kept.length),
    hidden: used.length - kept.length };
}

// The calls that the reason of a view's fault names, with what each is to it.
const rolesIn = (drawing, view) => new Map((faultOf(drawing, view) || {}).roles);

// Where a place of the axis stands as far gaps are drawn short; and back.
const bent = (gaps, at) => gaps.reduce((sum, [from, to, size]) =>
  sum - (Math.max(from, Math.min(to, at)) - from) * (1 - size / (to - from)), at);

function straight(gaps, at) {
  let found = at;
  for (const [from, to, size] of gaps) {
    if (found <= from) break;
    const inside = from + ((found - from) * (to - from)) / size;
    found = inside < to ? inside : found + (to - from) - size;
  }
  return found;
}

// A view's window in pixels.
function scaleOf({ from, to, width, gaps = [] }) {
  const left = bent(gaps, from), scale = width / (bent(gaps, to) - left);
  return (at) => Math.max(-FAR, Math.min(FAR, (bent(gaps, at) - left) * scale));
}

const round = (it) => Math.round(it * 10) / 10;
const grouped = (it) => String(Math.round(it)).replace(/\B(?=(\d{3})+$)/g, ",");

// From where to where a call is drawn: one whose end is not known to the edge.
function extent(drawing, view, x, it) {
  const left = x(drawing.left[it]), right = x(endOf(drawing, it));
  return right === FAR ? [Math.max(-LEAST, left), view.width] : [left, Math.max(left + LEAST, right)];
}

// The shapes of a view: its window from..to, its width, its lanes, a fault or null, the call that is
// chosen or null, and which part of the lanes is seen: so many pixels high, from a top on.
function scene(index, view) {
  const { drawing } = index, x = scaleOf(view), layout = laidOut(index, view);
  const fault = faultOf(drawing, view), head = headOf(drawing);
  const seen = Math.min(view.height, layout.height), bottom = head + seen;
  // The middle of a call, or undefined where it is not shown.
  const middle = (it) => {
    const place = layout.places.get(drawing.lane[it]), slot = place && place.slot(drawing.row[it]);
    return slot === undefined ? undefined :
      head + place.top - view.top + NAME + slot * ROW + BAR / 2;
  };
  const isText = ({ tag }) => tag === "text";
  const behind = [...bandShapes(drawing, view, x, bottom), ...roundShapes(drawing, view, x, bottom)];
  const shapes = behind.filter((it) => !isText(it));
  for (const place of layout.places.values()) {
    const top = head + place.top - view.top;
    const isSeen = top <= bottom && top + NAME + ROW * place.rows >= head;
    if (isSeen) shapes.push(...laneShapes(index, view, x, place, top, bottom));
  }
  const { folded } = layout, others = head + layout.height - OTHERS - view.top;
  if (folded) {
    const strip = { tag: "rect", class: "unfold", x: 0, y: others, width: view.width, height: OTHERS };
    const away = drawing.lanes.filter((_, lane) => !layout.places.has(lane));
    const nameless = away.find((it) => it === NAMELESS), named = folded - (nameless ? 1 : 0);
    const said = [named && `${named} other client${named === 1 ? "" : "s"}`, nameless];
    const text = `${said.filter((it) => it).join(" and ")}: show`;
    shapes.push(strip, textShape("name show", 4, others + 26, text));
  }
  for (const [from, to] of view.gaps.filter(([from, to]) => to > view.from && from < view.to)) {
    const words = `${grouped(to - from)} left out`, width = x(to) - x(from);
    shapes.push({ tag: "rect", class: "gap", x: round(x(from)), y: head - 10, width: round(width),
      height: bottom - head + 10, words });
    if (words.length * LETTER < width) {
      shapes.push(textShape("tick ", x(from) + width / 2, head + 2, words));
    }
  }
  shapes.push(...arrowShapes(drawing, view, x, middle));
  for (const [start, end, hasTip] of fault ? fault.links : []) {
    const [one, two] = [start, end].map(middle), [from, to] = facing(drawing, start, end).map(x);
    const tip = hasTip && (one !== two || to - from >= TIP ? "path" : "near");
    if (one !== undefined && two !== undefined) {
      shapes.push(lineShape(hasTip ? "path" : "path beside", from, one, to, two, tip));
    }
  }
  // No line goes over a text.
  shapes.sort((one, two) => isText(one) - isText(two));
  if (layout.height > seen) {
    const ground = { tag: "rect", class: "ground", x: 0, width: view.width };
    shapes.push({ ...ground, y: 0, height: head - 10 }, { ...ground, y: bottom, height: FOOT + LATE });
  }
  const isLate = fault && fault.late;
  shapes.push(...behind.filter(isText), ...tickShapes(drawing, view, x, bottom));
  if (isLate) shapes.push(...lateShapes(drawing, view, x, middle, bottom + FOOT));
  return { shapes, height: bottom + FOOT + (isLate ? LATE : 0), inner: layout.height };
}

function wayShape(look, d, tip) {
  return { tag: "path", class: look, d, ...(tip ? { "marker-end": `url(#tip-${tip})` } : {}) };
}

function lineShape(look, left, top, right, bottom, tip) {
  return wayShape(look, `M${round(left)} ${round(top)}L${round(right)} ${round(bottom)}`, tip);
}

const textShape = (look, x, y, text) => ({ tag: "text", class: look, x: round(x), y, text });

// Where two calls are nearest: at the end of the one and the begin of the other, or where both are.
function facing(drawing, one, two) {
  const [left, other] = [drawing.left[one], drawing.left[two]];
  const both = Math.max(left, other), ended = endOf(drawing, one), second = endOf(drawing, two);
  return [ended <= other ? ended : both, second <= left ? second : both];
}

// How late a call was, as a length below the axis: from the end that made it late to its begin.
function lateShapes(drawing, view, x, middle, top) {
  const { at, first, late, is_least: isLeast } = faultOf(drawing, view);
  const moment = (drawing.origin ? "+" : "") + grouped(drawing.right[first]);
  const outdated = `outdated ${isLeast ? "by" : "at"} ${moment}: ${late}`, long = `${drawing.label[at]} was ${outdated}`;
  const text = long.length * BOLD <= view.width ? long : outdated, half = (text.length * BOLD) / 2;
  const [from, to] = [x(drawing.right[first]), x(drawing.left[at])].map(round);
  const about = Math.max(half, Math.min(view.width - half, (from + to) / 2));
  const down = [[from, first], [to, at]].map(([place, it]) => `M${place} ${middle(it) || top}V${top}`);
  return [wayShape("down", down.join("")), wayShape("late", `M${from} ${top - 5}v10m0 -5H${to}m0 -5v10`),
    textShape("label on-path", about, top + 18, text)];
}

// The bands of a view, those of the key at fault: shaded in turn, with a line at each, where they are
// wide enough, and with their versions where there is room. Where a band began before the window, its
// version is at the edge, if it is in effect there for so long.
function bandShapes(drawing, view, x, bottom) {
  const { bands } = drawing, fault = faultOf(drawing, view), y = headOf(drawing) - 10, shapes = [];
  const { left, label, words, locked } = bands[fault ? fault.key : 0];
  const endAt = (it) => (it + 1 < left.length ? left[it + 1] : Infinity);
  const isSeen = (it) => left[it] <= view.to && endAt(it) > view.from && (fault || bands.length === 1);
  const seen = left.map((_, it) => it).filter(isSeen), isWide = seen.length <= view.width / TIGHT;
  let free = 0;
  for (const it of seen) {
    const at = x(left[it]), start = Math.max(0, at), stop = Math.min(view.width, x(endAt(it)));
    if (isWide) {
      shapes.push({ tag: "rect", class: `band ${locked[it] ? "locked" : `turn${it % 2}`}`, x: round(start),
        y, width: round(Math.max(0, stop - start)), height: bottom - y, words: words[it] });
    }
    if (isWide && at >= 0) shapes.push(wayShape("raise", `M${round(at)} ${y}V${bottom}`));
    const wide = (it) => it.length * BOLD + 10, [short] = label[it].split(" ");
    const text = wide(label[it]) <= stop - start ? label[it] : short, size = wide(text);
    const from = Math.min(start, view.width - size);
    if (from < free || (at < 0 && stop < size)) continue;
    shapes.push(textShape("version", from + 3, y - 5, text));
    free = from + size;
  }
  return shapes;
}

// The rounds of a run, where they are wide enough for a border.
function roundShapes(drawing, view, x, bottom) {
  const found = drawing.rounds.filter(([left, right]) => right > view.from && left < view.to);
  return (found.length > view.width / TIGHT ? [] : found).flatMap(([left, right, name]) => {
    const [from, to] = [Math.max(0, x(left)), Math.min(view.width, x(right))];
    const text = [name, name.split(" ")[1]].find((it) => it.length * LETTER + 6 <= to - from);
    const rect = { tag: "rect", class: "round", x: round(x(left)), y: 1,
      width: round(x(right) - x(left)), height: bottom - 1 };
    return [rect, ...(text ? [textShape("tick first", from + 4, 14, text)] : [])];
  });
}

// A lane: its name, its bars, and labels where they do not run into one another.
function laneShapes(index, view, x, place, top, bottom) {
  const { drawing } = index, { lane, slot } = place, marked = new Set(rolesIn(drawing, view).keys());
  if (view.chosen !== null) marked.add(view.chosen);
  const isSeen = ({ row }) => top + NAME + row * ROW < bottom && top + NAME + (row + 1) * ROW > 0;
  const first = [...marked].filter((it) => drawing.lane[it] === lane).map((call) => {
    const [left, right] = extent(drawing, view, x, call);
    return { call, left, right, row: slot(drawing.row[call]), count: 1 };
  });
  const bars = [...blocksOf(drawing, view, x, place, marked), ...first].filter(isSeen);
  const name = textShape("name", 4, top + 13, nameOf(drawing, place));
  return [wayShape("lane", `M0 ${top}H${view.width}`), name,
    ...bars.map((it) => barShape(drawing, view, it, top)),
    ...labelShapes(drawing, view, x, place, bars.filter(({ count }) => count === 1), top)];
}

// The calls of a lane that are not marked, those together that are too near to be told apart.
function blocksOf(drawing, view, x, { calls, slot }, marked) {
  const blocks = [], last = [];
  for (const call of calls) {
    const [left, right] = extent(drawing, view, x, call), row = slot(drawing.row[call]);
    if (marked.has(call) || row === undefined) continue;
    const block = last[row], narrow = right - left < NARROW;
    if (block && left <= block.right + 1 && narrow && block.narrow) {
      Object.assign(block, { right: Math.max(block.right, right), count: block.count + 1, last: call });
    } else blocks.push(last[row] = { call, last: call, left, right, row, count: 1, narrow });
  }
  return blocks;
}

const nameOf = (drawing, { lane, hidden }) =>
  drawing.lanes[lane] + (hidden ? `, and ${hidden} more at once` : "");

// The words of a call, with what it is to the fault that is looked at.
function wordsOf(drawing, view, it) {
  const role = rolesIn(drawing, view).get(it);
  return (role ? `${role}: ` : "") + drawing.words[it];
}

function barShape(drawing, view, { call, last, left, right, row, count }, top) {
  const { kinds, kind, key, name } = drawing, fault = faultOf(drawing, view);
  const box = { x: round(left), y: top + NAME + row * ROW, width: round(right - left), height: BAR };
  const words = `${count} calls, from ${name[call]} to ${name[last]}`;
  if (count > 1) return { tag: "rect", class: "block", ...box, words };
  const looks = { open: drawing.right[call] === null, faulty: fault && call === fault.at,
    "on-path": fault && call !== fault.at && rolesIn(drawing, view).has(call),
    chosen: call === view.chosen, pale: fault && key.length && key[call] !== fault.key };
  const look = ["bar", kinds[kind[call]].id, ...Object.keys(looks).filter((it) => looks[it])].join(" ");
  return { tag: "bar", class: look, ...box, call, words: wordsOf(drawing, view, call) };
}

// The labels of a lane, below or above their bars: that of the call at fault first, then those of the
// others of it, and the rest where they fit, in full or else in short. Those of a run stand at the
// middle of their bars, if they can within their round.
function labelShapes(drawing, view, x, place, bars, top) {
  const roles = rolesIn(drawing, view), fault = faultOf(drawing, view) || {}, shapes = [];
  const taken = { [`0 ${ABOVE}`]: [[0, 4 + nameOf(drawing, place).length * LETTER]] };
  const put = ({ call, left, right, row }, text, down, look, isFree = true) => {
    const [from, to] = [Math.max(0, left), Math.min(view.width, right)], begun = drawing.left[call];
    const size = text.length * (look ? BOLD : LETTER), space = (taken[`${row} ${down}`] ||= []);
    const its = !isFree && drawing.rounds.find(([, end]) => begun < end);
    const [least, most] = (its ? its.slice(0, 2).map(x) : [0, view.width])
      .map((it) => Math.max(0, Math.min(view.width, it)));
    const start = [(from + to - size) / 2, ...(drawing.rounds.length ? [] : [from, to - size])]
      .map((it) => Math.max(least, Math.min(most - size, it)))
      .find((it) => space.every(([begin, end]) => it > end + 3 || it + size < begin - 3));
    if (to - from < SEEN || size > most - least || start === undefined) return false;
    space.push([start, start + size]);
    return shapes.push(textShape(`label${look}`, start + size / 2, top + NAME + row * ROW + down, text));
  };
  const rank = ({ call }) => (call === fault.at ? 2 : Number(roles.has(call)));
  for (const bar of [...bars].sort((one, two) => rank(two) - rank(one))) {
    const isNamed = rank(bar) > 0, look = isNamed ? " on-path" : "", name = drawing.name[bar.call];
    const said = called(drawing, bar.call), long = isNamed ? `${name}: ${said}` : said;
    const short = isNamed ? name : drawing.key.length ? said : drawing.label[bar.call];
    if (bar.call === fault.knower && fault.known) {
      put(bar, `${fault.known} was known`, ABOVE, " on-path known");
    }
    const ways = [[long, BELOW], [long, ABOVE], [short, BELOW], [short, ABOVE]];
    [false, true].some((isFree) => ways.some((it) => put(bar, ...it, look, isFree)));
  }
  return shapes;
}

const called = ({ kinds, kind, label, key, keys }, it) =>
  `${kinds[kind[it]].short} ${label[it]}`.trim() + (key.length ? ` · ${keys[key[it]]}` : "");

// Arrows from call to call, if few enough are in the window to be told apart.
function arrowShapes(drawing, view, x, middle) {
  const { left, right } = drawing;
  const found = drawing.arrows.filter(([start, end]) => left[end] >= view.from &&
    right[start] <= view.to && middle(start) !== undefined && middle(end) !== undefined);
  return found.length > MOST_ARROWS ? [] : found.map(([start, end]) => lineShape("arrow",
    x(right[start]), middle(start), x(left[end]), middle(end), "arrow"));
}

// What stands below: round moments, behind the origin from which they count, or that calls stand in order.
function tickShapes(drawing, view, x, top) {
  const shapes = [wayShape("lane", `M0 ${top}H${view.width}`)], { gaps, width } = view;
  const text = drawing.axis === "time" ? drawing.origin : "in order →", sign = text ? "+" : "";
  if (text) shapes.push(textShape("tick first", 4, top + 16, text));
  if (drawing.axis !== "time") return shapes;
  const half = ((grouped(view.to).length + 2) * LETTER) / 2;
  const least = ((bent(gaps, view.to) - bent(gaps, view.from)) / width) * 2 * half;
  const power = 10 ** Math.floor(Math.log10(Math.max(1, least)));
  const step = [1, 2, 5, 10].map((it) => it * power).find((it) => it >= least);
  for (let at = Math.ceil(view.from / step) * step; at <= view.to; at += step) {
    const gap = gaps.find(([from, to]) => from < at && at < to);
    if (gap) at = Math.ceil(gap[1] / step) * step;
    shapes.push(wayShape("lane", `M${round(x(at))} ${top}v4`));
    if (x(at) - half >= text.length * LETTER && x(at) + half <= width) {
      shapes.push(textShape("tick ", x(at), top + 16, (at < 0 ? "" : sign) + grouped(at)));
    }
  }
  return shapes;
}

// The overview: how many calls there are where, each fault, and the window.
function overview(index, view, height) {
  const { drawing } = index, { from, to } = drawing;
  const x = scaleOf({ from, to, width: view.width });
  const bins = new Array(Math.max(1, Math.floor(view.width / 2))).fill(0);
  for (const it of index.all) {
    bins[Math.min(bins.length - 1, Math.floor(x(drawing.left[it]) / 2))] += 1;
  }
  const most = Math.sqrt(Math.max(1, ...bins)), space = height - 16;
  const way = bins.map((count, at) => count &&
    `M${at * 2} ${height}v${-round(2 + (Math.sqrt(count) / most) * (space - 2))}h2V${height}Z`);
  const left = Math.max(0, x(view.from)), right = Math.min(view.width, x(view.to));
  const now = view.fault === null ? [] : [[faultOf(drawing, view), view.fault]];
  const marks = new Map([...drawing.faults.map((it, fault) => [it, fault]).reverse(), ...now]
    .map(([{ at }, fault]) => [Math.round(x(drawing.left[at])), fault]));
  return [wayShape("density", way.filter((it) => it).join("") || "M0 0"),
    { tag: "rect", class: "window", x: round(left), y: 0.5,
      width: round(Math.max(4, right - left)), height: height - 1 },
    ...[...marks].map(([at, fault]) => ({ ...wayShape(fault === view.fault ? "mark now" : "mark",
      `M${at - 6} 1h12l-6 12Z`), fault, words: drawing.faults[fault].title }))];
}

// The window of a view that is zoomed by a factor about a place, and moved by a share of it: it stays in
// the drawing, and is never less than the least part.
function moved(drawing, { from, to, gaps }, share, factor = 1, about = from) {
  const [first, last, middle, least, most] = [from, to, about, drawing.from, drawing.to]
    .map((it) => bent(gaps, it));
  const size = Math.min(most - least, Math.max(drawing.axis === "time" ? 4 : 20, (last - first) * factor));
  const left = middle - ((middle - first) / (last - first)) * size + share * size;
  const start = Math.max(least, Math.min(most - size, left));
  return { from: straight(gaps, start), to: straight(gaps, start + size) };
}

// The calls that a typed text finds: by the number of their line, their name or their version, and one
// of each client by a part of its name.
function found({ drawing, calls }, view, text) {
  const plain = (it) => it.toLowerCase().replace(/[\u2066-\u2069]/g, "");
  const wanted = plain(text).trim().replace(/\s+/g, " ").replace(/(\d),(?=\d{3})/g, "$1");
  if (!wanted) return [];
  const all = drawing.left.map((_, call) => call), lanes = drawing.lanes.map((_, lane) => lane);
  const is = (lane) => [wanted, `client ${wanted}`].includes(plain(drawing.lanes[lane]));
  const named = lanes.filter((it) => plain(drawing.lanes[it]).includes(wanted))
    .sort((one, two) => is(two) - is(one))
    .map((it) => within(drawing, calls[it], view.from, view.to)[0] ?? calls[it][0]);
  return [...new Set([
    ...all.filter((it) => [wanted, `line ${wanted}`].includes(drawing.name[it])),
    ...all.filter((it) => plain(drawing.label[it]) === wanted), ...named])];
}

// The view that a fault opens with, or, without one, all of the drawing.
function opened(drawing, at) {
  const fault = drawing.faults[at] || null;
  const all = drawing.lanes.map((_, lane) => lane).slice(0, drawing.most_lanes);
  const { from, to, lanes, gaps } = fault || { ...drawing, lanes: all, gaps: [] };
  return { from, to, lanes, gaps, fault: fault && at, chosen: null, top: 0, few: fault !== null };
}

const SIGNS = { "&": "&amp;", "<": "&lt;", ">": "&gt;", '"': "&quot;" };
const escaped = (text) => String(text).replace(/[&<>"]/g, (it) => SIGNS[it]);

// Shapes as the inside of an SVG.
function markup(shapes) {
  return shapes.map(({ tag, words, text = "", call, fault, ...rest }) => {
    const named = { ...rest, "data-call": call, "data-fault": fault,
      role: tag === "bar" ? "img" : undefined };
    const said = Object.entries(named).filter(([, it]) => it !== undefined)
      .map(([name, it]) => ` ${name}="${escaped(it)}"`).join("");
    const name = tag === "bar" ? "rect" : tag, title = words ? `<title>${escaped(words)}</title>` : "";
    return `<${name}${said}>${title}${escaped(text)}</${name}>`;
  }).join("");
}

const Scene = { indexed, scene, overview, moved, found, opened, markup, within, laidOut, wordsOf, bent,
  straight };
if (typeof module !== "undefined") module.exports = Scene;
