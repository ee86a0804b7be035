// Draws the page from the data beside it. No library, and nothing is fetched.
"use strict";

const data = JSON.parse(document.getElementById("data").textContent);
const { events, peers, topics, sentences, limits } = data;
const state = { event: 0, peer: 0, scale: "steps" };

// ---- small tools

const byId = (id) => document.getElementById(id);

function put(node, attributes, children) {
  for (const [name, value] of Object.entries(attributes || {})) node.setAttribute(name, value);
  for (const child of [].concat(children || [])) node.append(child);
  return node;
}
const html = (name, attributes, ...children) => put(document.createElement(name), attributes, children);
const svg = (name, attributes, ...children) => put(document.createElementNS("http://www.w3.org/2000/svg", name), attributes, children);
const texts = (lines) => lines.map((line) => html("p", {}, line));

const minus = (text) => String(text).replace("-", "\u2212");
const signs = (words) => words.replace(/ -(?=\d)/g, " \u2212");
const named = (row) => (row.peers.length === 1 ? "Hub " : "Hubs ") + row.name.replaceAll("-", "\u2013");

/** So many things are told one by one in a name. */
const TOLD = 40;
const some = (words) => words.slice(0, TOLD).join("; ") + (words.length > TOLD ? `; and ${words.length - TOLD} changes more` : "");

/** Points to a few digits, for pictures; the table has them all. */
function short(text) {
  const number = Number(text);
  const digits = Math.abs(number) >= 1e5 ? number.toExponential(1) : Number(number.toFixed(2));
  return minus(Number.isInteger(number) && Math.abs(number) < 1e5 ? text : digits);
}

function clock(time) {
  const rest = String(time % 1000).padStart(3, "0");
  const seconds = Math.floor(time / 1000), minutes = Math.floor(seconds / 60), hours = Math.floor(minutes / 60);
  const two = (number) => String(number).padStart(2, "0");
  if (minutes === 0) return `${seconds}.${rest} s`;
  if (hours === 0) return `${minutes}:${two(seconds % 60)}.${rest}`;
  return `${hours}:${two(minutes % 60)}:${two(seconds % 60)}.${rest}`;
}

/** Of changes [event, ..], in order, the last one up to an event. */
function at(changes, event) {
  let low = 0, high = changes.length;
  while (low < high) {
    const middle = (low + high) >> 1;
    if (changes[middle][0] <= event) low = middle + 1; else high = middle;
  }
  return low === 0 ? null : changes[low - 1];
}

// ---- how a peer stands

const PLACES = {
  O: "in the mesh, outbound", I: "in the mesh, inbound", B: "pruned or refused, backoff runs", W: "backoff over, our GRAFT waits a second",
  F: "outside, may come in", U: "not subscribed", N: "we are not in the topic", E: "explicit, in no mesh", K: "gone, record kept",
};

/** What a code means for people: the kind of its badge. */
function verdict(code) {
  const place = code[0], below = code.length > 1;
  if (place === "O" || place === "I") return below ? "risk" : "in";
  if (place === "B" || place === "W") return below ? "out" : "wait";
  if (place === "F") return below ? "out" : "free";
  return "aside";
}
const BADGES = { out: "OUT", wait: "OUT FOR NOW", risk: "IN, NOT FOR LONG", in: "IN", free: "outside, welcome", aside: "not taking part" };
const ORDER = ["out", "wait", "risk", "in", "free", "aside"];
const isHeld = (kind) => kind === "out" || kind === "wait";
const hasCard = (kind) => isHeld(kind) || kind === "risk";

function told(code) {
  if (code === " " || code === "") return "no record";
  const level = { "-": ", score below zero", "!": ", score so low that it is ignored" }[code[1]] || "";
  return PLACES[code[0]] + level;
}

// ---- where events stand

/** The steps: runs of events that one line of the trace stands for. */
const steps = [];
events.forEach((event, place) => {
  const last = steps[steps.length - 1];
  if (last && last.step === event.step) last.end = place; else steps.push({ step: event.step, start: place, end: place });
});
const stepOf = (event) => events[event].step;

/** In true time the last event has so much of the whole. */
const SPARE = 0.03;

/** The left edges of the steps, and the right edge of the last, from 0 to 1. */
function edges() {
  const sizes = steps.map((step, place) => {
    if (state.scale === "steps") return 1 + Math.log2(step.end - step.start + 1) / 2;
    const next = steps[place + 1];
    return next ? Math.max(0, events[next.start].clock - events[step.start].clock) : 0;
  });
  const spare = state.scale === "time" ? Math.max(1, sizes.reduce((sum, size) => sum + size, 0)) * SPARE : 0;
  if (spare) sizes[sizes.length - 1] = spare;
  const whole = sizes.reduce((sum, size) => sum + size, 0) || 1;
  const found = [0];
  for (const size of sizes) found.push(found[found.length - 1] + size / whole);
  return found;
}

/** A picture's frame: its width, and places from left to right. */
function frame(holder) {
  const width = Math.max(260, Math.floor(holder.clientWidth || 600));
  const left = width < 480 ? 70 : 112, right = width - 40;
  const marks = edges();
  const edge = (step) => left + (right - left) * marks[step];
  const x = (event) => {
    if (event >= events.length) return right;
    const step = steps[stepOf(event)], share = (event - step.start) / (step.end - step.start + 1);
    return edge(step.step) + (edge(step.step + 1) - edge(step.step)) * share;
  };
  const begin = events[0].clock, whole = (events[events.length - 1].clock - begin || 1) * (1 + SPARE);
  const at = (time) => left + ((right - left) * (time - begin)) / whole;
  return { width, left, right, edge, x, at };
}

/** The event under a place of a picture. */
function eventAt(shape, x) {
  let found = 0;
  for (let event = 0; event < events.length; event++) if (shape.x(event) <= x) found = event;
  return found;
}

// ---- parts that all pictures have

function ticks(shape, top, bottom) {
  const marks = [];
  let free = -Infinity, time = -1;
  for (const step of steps) {
    const event = events[step.start], x = shape.edge(step.step);
    if (event.clock === time) continue;
    time = event.clock;
    marks.push(svg("line", { class: "grid", x1: x, x2: x, y1: top, y2: bottom }));
    if (x < free || x > shape.right - 20) continue;
    marks.push(svg("text", { class: "tick", x, y: bottom + 14 }, clock(time).replace(/\.000/, "")));
    free = x + 58;
  }
  return marks;
}

function cursorOf(shape, top, bottom) {
  const marks = svg("g", { "aria-hidden": "true" });
  const draw = () => {
    const x = shape.x(state.event), width = Math.max(3, shape.x(state.event + 1) - x);
    marks.replaceChildren(
      svg("rect", { class: "cursor", x, y: top, width, height: bottom - top }),
      svg("path", { class: "cursor-mark", d: `M${x + width / 2 - 6} ${top - 8}h12l-6 8z` }),
    );
  };
  draw();
  cursors.push(draw);
  return marks;
}
const cursors = [];

/** A pointer that is drawn over a picture takes the cursor with it. */
function follows(picture, shape) {
  const move = (pointer) => {
    const x = pointer.clientX - picture.getBoundingClientRect().left;
    if (x >= shape.left - 4) show(eventAt(shape, x), true);
  };
  picture.addEventListener("pointerdown", (pointer) => { picture.dataset.held = "yes"; move(pointer); });
  picture.addEventListener("pointermove", (pointer) => { if (picture.dataset.held) move(pointer); });
  for (const end of ["pointerup", "pointercancel", "pointerleave"]) picture.addEventListener(end, () => delete picture.dataset.held);
  return picture;
}

// ---- the mesh of a topic

const ROW = 24, STRIP = 74;

function spans(changes) {
  const found = [];
  for (const step of steps) {
    const change = at(changes, step.end), code = change ? change[1] : " ", last = found[found.length - 1];
    if (last && last.code === code) last.to = step.step + 1; else found.push({ code, from: step.step, to: step.step + 1 });
  }
  return found.filter((span) => span.code.trim() !== "");
}

function bar(x, y, width, code, words) {
  const place = code[0], parts = [];
  if (place === "K") parts.push(svg("line", { class: "kept", x1: x, x2: x + width, y1: y + 9, y2: y + 9 }));
  else if (place === "U" || place === "N") parts.push(svg("rect", { class: place, x, y: y + 5, width, height: 8 }));
  else parts.push(svg("rect", { class: place, x, y, width, height: 18 }));
  for (let at = x + 4; place === "B" && at + 8 <= x + width; at += 8) {
    parts.push(svg("line", { class: "hatch", x1: at, y1: y + 18, x2: at + 8, y2: y }));
  }
  if (code.length > 1) {
    parts.push(svg("rect", { class: "below", x, y: y + 12, width, height: 8 }));
    for (let at = x + 3; at + 4 <= x + width; at += 7) {
      parts.push(svg("line", { class: "below-line", x1: at, x2: at + 4, y1: y + 16, y2: y + 16 }));
    }
  }
  const letter = place + minus(code.slice(1)), base = y + (code.length > 1 ? 10.5 : 13);
  if (width >= 8 + 7 * letter.length) parts.push(svg("text", { class: `letter ${place}`, x: x + 4, y: base }, letter));
  return svg("g", { class: "span", "data-code": code }, svg("title", {}, words), ...parts);
}

function rowOf(topic, index, row, shape, y) {
  const changes = peers[row.peers[0]].topics[topic];
  const name = row.name.length > (shape.left - 40) / 7 ? row.name.slice(0, Math.floor((shape.left - 50) / 7)) + "\u2026" : row.name;
  const words = spans(changes).map((span) => `${told(span.code)} from event ${steps[span.from].start + 1}`);
  const marks = svg("g", { class: "row", role: "button", tabindex: "0", "data-row": index, "data-peer": row.peers[0],
    "aria-label": `${named(row)}: ${some(words) || "no record"}` });
  marks.append(svg("rect", { class: "back", x: 0, y, width: shape.width, height: ROW }),
    svg("text", { class: "name", x: 4, y: y + 16 }, (row.peers.length === 1 ? "hub " : "hubs ") + name.replaceAll("-", "\u2013")));
  for (const span of spans(changes)) {
    const words = `${named(row)}: ${told(span.code)}, events ${steps[span.from].start + 1} to ${steps[span.to - 1].end + 1}`;
    const x = shape.edge(span.from), width = Math.max(1.5, shape.edge(span.to) - x - 1), over = overAt(changes, span, shape, x);
    const isCut = over > 1 && over < width - 1;
    marks.append(bar(x, y + 3, isCut ? over : width, span.code, words));
    if (isCut) marks.append(bar(x + over, y + 3, width - over, `F${span.code.slice(1)}`, `${named(row)}: its backoff is over`));
  }
  for (const event of prunes(topic, row.peers[0])) marks.append(pruneMark(shape.edge(stepOf(event)), y));
  const choose = () => choosePeer(row.peers[0]);
  marks.addEventListener("click", choose);
  marks.addEventListener("keydown", (key) => { if (key.key === "Enter" || key.key === " ") { key.preventDefault(); choose(); } });
  return marks;
}

/** In true time a backoff is over before the next event may come: how far it reaches from the left edge of its span. */
function overAt(changes, span, shape, x) {
  if (state.scale !== "time" || span.code[0] !== "B") return Infinity;
  return shape.at(at(changes, steps[span.to - 1].end)[3]) - x;
}

/** The events that take a peer out of the mesh, or give it a new backoff. */
function prunes(topic, peer) {
  const changes = peers[peer].topics[topic], found = [];
  changes.forEach((change, place) => {
    const before = place ? changes[place - 1] : [0, " ", 0, 0];
    if (change[3] > before[3]) found.push(change[0]);
  });
  return found;
}
const pruneMark = (x, y) => svg("path", { class: "pruned", d: `M${x - 5} ${y + 1}h10l-5 9z` }, svg("title", {}, "PRUNE: a backoff starts"));

function sizePicture(topic, shape, top) {
  const most = Math.max(Number(limits.D_hi), ...topic.sizes.map(([, inbound, outbound]) => inbound + outbound)) + 1;
  const y = (count) => top + STRIP - (STRIP * count) / most;
  const area = (count) => {
    let path = `M${shape.left} ${y(0)}`;
    topic.sizes.forEach((size, place) => {
      const next = topic.sizes[place + 1], end = next ? shape.x(next[0]) : shape.right;
      path += `L${shape.x(size[0])} ${y(count(size))}L${end} ${y(count(size))}`;
    });
    return path;
  };
  const near = Math.abs(y(Number(limits.D_lo)) - y(Number(limits.D_out))) < 11;
  const lines = ["D_lo", "D_hi", "D_out"].flatMap((name) => {
    const height = y(Number(limits[name])), shift = near && name === "D_lo" ? 0 : near && name === "D_out" ? 9 : 4;
    return [svg("line", { class: "bound-line", x1: shape.left, x2: shape.right, y1: height, y2: height }),
      svg("text", { class: "bound", x: shape.right + 3, y: height + shift }, name)];
  });
  return svg("g", { class: "size" },
    svg("text", { x: 4, y: top + 14 }, "members"),
    svg("path", { class: "inbound-area", d: `${area(([, inbound, outbound]) => inbound + outbound)}V${y(0)}Z` }),
    svg("path", { class: "outbound-area", d: `${area(([, , outbound]) => outbound)}V${y(0)}Z` }),
    svg("path", { class: "size-line", d: area(([, inbound, outbound]) => inbound + outbound) }),
    svg("line", { class: "axis", x1: shape.left, x2: shape.right, y1: y(0), y2: y(0) }), ...lines);
}

function topicPicture(topic, index, holder) {
  const shape = frame(holder), top = 12, rows = top + STRIP + 10, bottom = rows + ROW * topic.rows.length;
  const picture = svg("svg", { width: shape.width, height: bottom + 20, role: "group", "data-topic": topic.topic,
    "aria-label": `The mesh of topic ${topic.topic} over time, a row for each hub or for hubs alike` });
  picture.append(...ticks(shape, top, bottom), sizePicture(topic, shape, top));
  topic.rows.forEach((row, place) => picture.append(rowOf(index, place, row, shape, rows + ROW * place)));
  picture.append(cursorOf(shape, top, bottom));
  return follows(picture, shape);
}

function drawTopics() {
  const holder = byId("topics");
  holder.replaceChildren();
  topics.forEach((topic, index) => {
    const figure = html("figure", {}, html("figcaption", {}, `Topic ${topic.topic}`));
    holder.append(figure);
    figure.append(topicPicture(topic, index, figure));
  });
  if (topics.length === 0) holder.closest("section").hidden = true;
}

function drawLegend() {
  const seen = new Set(peers.flatMap((peer) => peer.topics.flatMap((changes) => changes.map((change) => change[1]))));
  const isSeen = (place) => [...seen].some((code) => code[0] === place);
  const codes = Object.keys(PLACES).filter((place) => isSeen(place) || (place === "F" && isSeen("B")));
  const sample = (code) => svg("svg", { width: 30, height: 22, "aria-hidden": "true" }, bar(1, 1, 28, code, ""));
  const items = codes.map((place) => html("li", {}, sample(place), `${place}: ${PLACES[place]}`));
  if ([...seen].some((code) => code.length > 1)) {
    items.push(html("li", {}, sample("F-"), "\u2212: score below zero; !: so low that it is ignored"));
  }
  const mark = svg("svg", { width: 16, height: 14, "aria-hidden": "true" }, pruneMark(8, 1));
  items.push(html("li", {}, mark, "PRUNE, a backoff starts"));
  byId("legend").replaceChildren(...items);
}

// ---- scores

const PARTS = [
  ["topics", "Topics, after the cap", 1], ["application", "Application (P5)", 2],
  ["group", "Address group (P6)", 3], ["behaviour", "Behaviour penalty (P7)", 4],
];

/** Pieces of constant score: [from event, to event, the numbers as texts]. */
function pieces(peer) {
  const changes = peers[peer].scores;
  return changes.map(([event, numbers], place) => [event, place + 1 < changes.length ? changes[place + 1][0] : events.length, numbers])
    .filter(([, , numbers]) => numbers.length > 0);
}

/** The lowest and the highest place that a piece's parts reach, and its part cut off. */
function reach(numbers) {
  const [total, ...parts] = numbers.map(Number);
  const up = parts.slice(0, 4).filter((part) => part > 0).reduce((sum, part) => sum + part, 0);
  const down = parts.slice(0, 4).filter((part) => part < 0).reduce((sum, part) => sum + part, 0);
  return { up: up + Math.max(0, total - parts[0]), down };
}

function bounds(all) {
  const reached = all.map(([, , numbers]) => reach(numbers));
  const high = Math.max(1, ...reached.map((one) => one.up)), low = Math.min(-1, ...reached.map((one) => one.down));
  return { high, low };
}

function stack(piece, shape, y) {
  const [from, to, numbers] = piece, x = shape.x(from), width = Math.max(1.5, shape.x(to) - x), found = [];
  let up = 0, down = 0;
  const box = (name, from, to, words) => found.push(svg("rect", { class: `part p-${name}`, "data-part": name, x, width,
    y: Math.min(y(from), y(to)), height: Math.abs(y(from) - y(to)) }, svg("title", {}, words)));
  for (const [name, words, place] of PARTS) {
    const part = Number(numbers[place]);
    if (part > 0) { box(name, up, up + part, `${words} ${minus(numbers[place])}`); up += part; }
    if (part < 0) { box(name, down, down + part, `${words} ${minus(numbers[place])}`); down += part; }
  }
  const cut = Number(numbers[0]) - Number(numbers[1]);
  if (cut > 0) box("cut", up, up + cut, `Topics, cut off by the cap: ${short(cut)}`);
  return found;
}

function scoreLine(all, shape, y) {
  let path = "";
  all.forEach(([from, to, numbers], place) => {
    const joins = place > 0 && all[place - 1][1] === from;
    path += `${joins ? "L" : "M"}${shape.x(from)} ${y(Number(numbers[5]))}L${shape.x(to)} ${y(Number(numbers[5]))}`;
  });
  return [svg("path", { class: "score-case", d: path }), svg("path", { class: "score-line", d: path })];
}

/** Round numbers between two bounds. */
function levels(low, high) {
  const rough = (high - low) / 5, power = 10 ** Math.floor(Math.log10(rough));
  const apart = [1, 2, 5, 10].map((one) => one * power).find((one) => one >= rough);
  const found = [];
  for (let level = Math.ceil(low / apart) * apart; level <= high; level += apart) found.push(Number(level.toPrecision(12)));
  return found;
}

function scorePicture(holder) {
  const shape = frame(holder), top = 12, bottom = 252, all = pieces(state.peer);
  const { high, low } = bounds(all);
  const y = (value) => bottom - ((bottom - top) * (value - low)) / (high - low);
  const told = all.map(([from, , numbers]) => `${minus(numbers[5])} from event ${from + 1}`);
  const picture = svg("svg", { width: shape.width, height: bottom + 20, role: "img",
    "aria-label": `The score of hub ${peers[state.peer].id} over time: ${some(told)}` });
  picture.append(...ticks(shape, top, bottom));
  for (const level of levels(low, high)) {
    picture.append(svg("line", { class: level === 0 ? "axis" : "grid", x1: shape.left, x2: shape.right, y1: y(level), y2: y(level) }),
      svg("text", { class: "tick", x: shape.left - 6, y: y(level) + 4, "text-anchor": "end" }, short(level)));
  }
  const zero = svg("line", { class: "axis", x1: shape.left, x2: shape.right, y1: y(0), y2: y(0) });
  picture.append(...all.flatMap((piece) => stack(piece, shape, y)), zero);
  const gray = Number(limits.graylist);
  if (gray >= low) picture.append(svg("line", { class: "gray-line", x1: shape.left, x2: shape.right, y1: y(gray), y2: y(gray) }),
    svg("text", { class: "tick", x: shape.left + 4, y: y(gray) - 4 }, "graylist: below this it is ignored"));
  picture.append(...scoreLine(all, shape, y), svg("text", { x: 4, y: top + 6 }, "points"), cursorOf(shape, top, bottom));
  return follows(picture, shape);
}

function drawScore() {
  const holder = byId("score");
  if (peers.length === 0) return;
  const figure = html("figure", {}, html("figcaption", {}, `Hub ${peers[state.peer].id}`));
  holder.replaceChildren(figure);
  figure.append(scorePicture(figure));
}

/** A small picture of more pieces has the sum alone. */
const MANY = 300;

function smallPicture(peer) {
  const width = 180, height = 44, all = pieces(peer), { high, low } = bounds(all);
  const marks = edges();
  const x = (event) => {
    if (event >= events.length) return width;
    const step = steps[stepOf(event)], share = (event - step.start) / (step.end - step.start + 1);
    return width * (marks[step.step] + (marks[step.step + 1] - marks[step.step]) * share);
  };
  const y = (value) => 2 + (height - 4) * (1 - (value - low) / (high - low));
  const shape = { x };
  return svg("svg", { viewBox: `0 0 ${width} ${height}`, width: "100%", height, preserveAspectRatio: "none", "aria-hidden": "true" },
    ...(all.length > MANY ? [] : all.flatMap((piece) => stack(piece, shape, y))),
    svg("line", { class: "axis", x1: 0, x2: width, y1: y(0), y2: y(0) }), ...scoreLine(all, shape, y));
}

function drawAllScores() {
  const buttons = data.scores.map((row) => {
    const button = html("button", { type: "button", "data-peer": row.peers[0] },
      html("b", {}, named(row)), html("span", { class: "score-now" }), smallPicture(row.peers[0]));
    button.addEventListener("click", () => choosePeer(row.peers[0]));
    return button;
  });
  byId("all-scores").replaceChildren(...buttons);
}

function drawPartsLegend() {
  const swatch = (name, words) => html("li", {}, html("span", { class: `swatch ${name}`, "aria-hidden": "true" }), words);
  byId("parts-legend").replaceChildren(...PARTS.map(([name, words]) => swatch(name, words)),
    swatch("cut", "Topics, cut off by the cap"), swatch("score", "Score, the sum"));
}

/** The table of the five parts at the cursor. */
function showParts() {
  if (peers.length === 0) return;
  const change = at(peers[state.peer].scores, state.event), numbers = change ? change[1] : [];
  const names = ["Topics, before the cap", ...PARTS.map((part) => part[1]), "Score: the last four together"];
  const value = (place) => (numbers.length ? minus(numbers[place]) : "\u2013");
  const rows = names.map((name, place) => html("tr", {}, html("th", { scope: "row" }, name), html("td", {}, value(place))));
  const words = `Hub ${peers[state.peer].id} after event ${state.event + 1}${numbers.length ? "" : " (not connected)"}, in points`;
  byId("parts").replaceChildren(html("caption", {}, words), html("tbody", {}, ...rows));
  for (const button of byId("all-scores").children) {
    const own = at(peers[Number(button.dataset.peer)].scores, state.event);
    button.querySelector(".score-now").textContent = own && own[1].length ? `now ${short(own[1][5])} points` : "not connected";
    button.setAttribute("aria-pressed", String(isAlike(Number(button.dataset.peer))));
  }
}
const isAlike = (first) => data.scores.some((row) => row.peers[0] === first && row.peers.includes(state.peer));

// ---- who is out, and why

/** Hubs of a topic that stand alike now, with the same words; of those that have a card also with the same parts. */
function groups(index) {
  const found = new Map();
  peers.forEach((peer, place) => {
    const change = at(peer.topics[index], state.event), score = at(peer.scores, state.event);
    if (!change || change[1] === " ") return;
    const numbers = score ? score[1] : [], own = hasCard(verdict(change[1])) ? numbers : [];
    const key = JSON.stringify([change[1], change[2], own]);
    if (!found.has(key)) found.set(key, { code: change[1], words: sentences[change[2]], end: change[3], numbers, peers: [], scores: [] });
    found.get(key).peers.push(place);
    if (numbers.length) found.get(key).scores.push(numbers[5]);
  });
  const all = [...found.values()];
  for (const group of all) group.name = runs(group.peers.map((place) => peers[place].id));
  return all.sort((one, other) => ORDER.indexOf(verdict(one.code)) - ORDER.indexOf(verdict(other.code)));
}

function runs(ids) {
  const found = [];
  for (const id of ids) {
    const last = found[found.length - 1];
    if (last && last[1] === id - 1) last[1] = id; else found.push([id, id]);
  }
  return found.map(([from, to]) => (from === to ? `${from}` : `${from}-${to}`)).join(", ");
}

/** The parts of a score as bars on both sides of zero. */
function bars(numbers) {
  const { up, down } = reach(numbers), score = Number(numbers[5]);
  const high = Math.max(up, score, 0), low = Math.min(down, score, 0), whole = high - low || 1;
  const percent = (value) => (value / whole) * 100;
  const box = (name, from, to) => html("span", { class: `bar ${name}`,
    style: `left:${percent(Math.min(from, to) - low)}%;width:${percent(Math.abs(to - from))}%` });
  const zero = () => html("span", { class: "zero", style: `left:calc(${percent(-low)}% - 1px)` });
  const track = (name, value, cut) => html("span", { class: "track" },
    ...(value ? [box(name, 0, value)] : []), ...(cut > 0 ? [box("cut", value, value + cut)] : []), zero());
  const over = Number(numbers[0]) - Number(numbers[1]);
  const rows = PARTS.flatMap(([name, words, place]) => {
    const cut = name === "topics" ? over : 0, note = cut > 0 ? ` of ${short(numbers[0])}` : "";
    return [html("span", {}, words.replace(", after the cap", "")), track(name, Number(numbers[place]), cut),
      html("span", { class: "value" }, short(numbers[place]) + note)];
  });
  const told = PARTS.map(([, words, place]) => `${words} ${minus(numbers[place])}`).join(", ");
  return html("div", { class: "bars", role: "img", "aria-label": `The parts of the score: ${told}; score ${minus(numbers[5])}` },
    ...rows, html("span", { class: "sum" }, "Score"), html("span", { class: "sum" }, track("whole", score, 0)),
    html("span", { class: "value sum" }, short(numbers[5])));
}

function card(group, topic) {
  const kind = verdict(group.code), tags = [];
  if (group.code.length > 1) tags.push(html("li", { class: "below" }, `score ${short(group.numbers[5])}, below zero`));
  if (group.code[1] === "!") tags.push(html("li", { class: "below" }, "graylisted"));
  if (group.end > 0) tags.push(html("li", { class: "backoff" }, `backoff until ${clock(group.end)}`));
  if (group.code[0] === "W") tags.push(html("li", { class: "backoff" }, "our GRAFT waits a second more"));
  const parts = group.numbers.length && group.numbers.slice(0, 5).some((number) => Number(number) !== 0) ? [bars(group.numbers)] : [];
  return html("article", { class: `card ${kind}`, "data-code": group.code },
    html("h4", {}, html("span", { class: `badge ${kind}` }, BADGES[kind]), named(group), html("small", {}, `topic ${topic.topic}`)),
    html("ul", { class: "tags" }, ...tags), html("div", { class: "body" }, ...parts, html("p", { class: "why" }, signs(group.words))));
}

function line(group) {
  const kind = verdict(group.code), sorted = [...group.scores].sort((one, other) => one - other), most = sorted[sorted.length - 1];
  const score = sorted.length === 0 ? "" : sorted[0] === most ? `, score ${short(most)}` : `, scores ${short(sorted[0])} to ${short(most)}`;
  const badge = html("span", { class: `badge ${kind}` }, BADGES[kind]);
  return html("li", { "data-code": group.code }, badge, " ", html("b", {}, named(group)), `${score}: ${signs(group.words)}`);
}

function headline(topic, all) {
  const count = (kind) => all.filter((group) => verdict(group.code) === kind).reduce((sum, group) => sum + group.peers.length, 0);
  const size = at(topic.sizes, state.event) || [0, 0, 0], out = count("out") + count("wait");
  const held = out === 0 ? "no hub is kept out" : out === 1 ? "1 hub is kept out" : `${out} hubs are kept out`;
  return html("p", { class: "headline" }, html("b", {}, `Topic ${topic.topic}: ${held}`),
    `; ${size[1] + size[2]} in the mesh (${size[1]} inbound, ${size[2]} outbound).`,
    ` It wants ${limits.D_lo} to ${limits.D_hi}, ${limits.D_out} of them outbound.`);
}

function showVerdict() {
  const parts = topics.flatMap((topic, index) => {
    const all = groups(index);
    const cards = all.filter((group) => hasCard(verdict(group.code))).map((group) => card(group, topic));
    const others = all.filter((group) => !hasCard(verdict(group.code))).map(line);
    return [headline(topic, all), html("div", { class: "cards" }, ...cards), html("ul", { class: "others" }, ...others)];
  });
  const none = "No event of this trace speaks of a topic, so there is no mesh; the scores are below.";
  if (topics.length === 0) parts.push(html("p", { class: "quiet" }, none));
  byId("verdict").replaceChildren(...parts);
}

// ---- the list of events

function entry(event, place) {
  const refused = !event.answer.startsWith("0 ");
  const button = html("button", { type: "button", "data-event": place + 1 },
    html("span", { class: "number" }, `${place + 1} \u00b7 ${clock(event.time)} `), event.said,
    html("span", { class: refused ? "refused" : "answer" }, ` \u2014 ${refused ? "answer " : ""}${event.answer}`),
    ...event.results.map((result) => html("span", { class: "result" }, signs(result))),
    ...(event.beside ? [html("span", { class: "beside" }, event.beside)] : []),
    html("code", {}, [event.line, ...event.printed].join(" \u00b7 ")));
  button.addEventListener("click", () => show(place));
  const before = event.before.map((words) => html("p", { class: "before" }, words));
  return html("li", { class: "event" }, ...before, button);
}

function showEvent(before) {
  const list = byId("events"), buttons = list.querySelectorAll("button");
  if (buttons[before]) buttons[before].removeAttribute("aria-current");
  const button = buttons[state.event];
  button.setAttribute("aria-current", "true");
  const item = button.parentNode, top = item.offsetTop, height = item.offsetHeight, room = list.clientHeight;
  const seen = top >= list.scrollTop && top + height <= list.scrollTop + room;
  if (!seen) list.scrollTop = top - Math.max(0, Math.min(room / 3, room - height));
  const event = events[state.event];
  const place = html("b", {}, `Event ${state.event + 1} of ${events.length}, ${clock(event.time)}`);
  byId("now").replaceChildren(place, `: ${event.said} \u2014 ${event.answer}`);
  byId("slider").value = state.event + 1;
  byId("slider").setAttribute("aria-valuetext", `Event ${state.event + 1} of ${events.length}: ${event.said}`);
}

// ---- the cursor

function show(event, held) {
  const before = state.event, top = byId("topics").parentNode.getBoundingClientRect().top;
  state.event = Math.max(0, Math.min(events.length - 1, event));
  showEvent(before);
  showVerdict();
  showParts();
  for (const draw of cursors) draw();
  // What is told above the pictures may take more or less room now: those that are looked at stay where they are.
  const passed = byId("verdict").getBoundingClientRect().top < byId("bar").getBoundingClientRect().bottom;
  if (held || passed) scrollBy(0, byId("topics").parentNode.getBoundingClientRect().top - top);
  try { history.replaceState(null, "", `#event=${state.event + 1}`); } catch (error) { /* a page in a frame may not */ }
}

function choosePeer(peer) {
  state.peer = peer;
  byId("peer").value = peer;
  redraw();
}

function redraw() {
  cursors.length = 0;
  drawTopics();
  drawScore();
  showParts();
  for (const row of document.querySelectorAll("svg .row")) row.classList.toggle("chosen", topics.some((topic, index) =>
    row.closest("svg").dataset.topic === String(topic.topic) && topic.rows[Number(row.dataset.row)].peers.includes(state.peer)));
}

function keys(key) {
  if (key.altKey || key.ctrlKey || key.metaKey || ["INPUT", "SELECT"].includes(key.target.tagName)) return;
  const step = steps[stepOf(state.event)];
  const moves = {
    ArrowRight: key.shiftKey ? step.end + 1 : state.event + 1, ArrowLeft: key.shiftKey ? step.start - 1 : state.event - 1,
    Home: 0, End: events.length - 1,
  };
  if (!(key.key in moves)) return;
  key.preventDefault();
  show(moves[key.key]);
}

function listen() {
  byId("slider").max = events.length;
  byId("slider").addEventListener("input", () => show(byId("slider").valueAsNumber - 1));
  byId("first").addEventListener("click", () => show(0));
  byId("back").addEventListener("click", () => show(state.event - 1));
  byId("on").addEventListener("click", () => show(state.event + 1));
  byId("last").addEventListener("click", () => show(events.length - 1));
  byId("peer").addEventListener("change", () => choosePeer(Number(byId("peer").value)));
  byId("scale").addEventListener("change", (change) => { state.scale = change.target.value; redraw(); drawAllScores(); showParts(); });
  document.addEventListener("keydown", keys);
  let width = innerWidth;
  addEventListener("resize", () => { if (innerWidth !== width) { width = innerWidth; redraw(); } });
  addEventListener("hashchange", () => show(asked(state.event)));
}

/** The event that the address asks for. */
function asked(otherwise) {
  const found = /^#event=(\d+)$/.exec(location.hash);
  return found ? Number(found[1]) - 1 : otherwise;
}

/** The hub that the page opens with: of those held out the one with the least points. */
function openingPeer() {
  const score = (place) => {
    const own = at(peers[place].scores, state.event);
    return own && own[1].length ? Number(own[1][5]) : Infinity;
  };
  const isOut = (changes) => {
    const own = at(changes, state.event);
    return own && isHeld(verdict(own[1]));
  };
  const every = peers.map((peer, place) => place), held = every.filter((place) => peers[place].topics.some(isOut));
  const all = held.length ? held : every;
  return all.reduce((best, place) => (score(place) < score(best) ? place : best), all[0]);
}

/** The looks of areas, which differ without colours too. */
function patterns() {
  const pattern = (id, size, ...inner) => svg("pattern", { id, width: size, height: size, patternUnits: "userSpaceOnUse" }, ...inner);
  const rect = (colour, size) => svg("rect", { width: size, height: size, style: `fill:var(--${colour})` });
  const stroke = "stroke:var(--card);stroke-width:2";
  document.body.append(svg("svg", { width: 0, height: 0, style: "position:absolute", "aria-hidden": "true" }, svg("defs", {},
    pattern("dots", 8, rect("application", 8), svg("circle", { cx: 4, cy: 4, r: 1.8, style: "fill:var(--card)" })),
    pattern("slants", 8, rect("group", 8), svg("path", { d: "M-2 2L2 -2M0 8L8 0M6 10L10 6", style: stroke })),
    pattern("bars", 7, rect("behaviour", 7), svg("path", { d: "M3.5 0V7", style: stroke })))));
}

function start() {
  byId("head").append(...texts(data.head));
  patterns();
  drawPartsLegend();
  if (data.refused || events.length === 0) {
    byId("refused").hidden = false;
    byId("refused").textContent = data.refused || "This trace has no event.";
    for (const part of document.querySelectorAll("#bar, main")) part.hidden = true;
    return;
  }
  state.event = Math.min(events.length - 1, asked(data.opening));
  state.peer = peers.length ? openingPeer() : 0;
  drawLegend();
  byId("events").append(...events.map(entry));
  byId("peer").append(...peers.map((peer, place) => html("option", { value: place }, `Hub ${peer.id}`)));
  byId("peer").value = state.peer;
  listen();
  redraw();
  drawAllScores();
  show(state.event);
}

start();
