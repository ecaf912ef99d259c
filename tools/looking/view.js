"use strict";
// The picture: where columns and lanes stand, and what of them is in view. A column is a select or a callback.
const D = JSON.parse(document.getElementById("data").textContent);
const $ = (id) => document.getElementById(id);
const TURN = 0, TIME = 1, FIRST = 2, END = 3;
const FROM = 0, TO = 1, KIND = 2, TEXT = 3;
const LEFT = 168, TOP = 40, CHAR = 5.9, MONO = 6.5;
const HEIGHTS = { T: 48, G: 30, O: 30, L: 40, C: 40, P: 40 };
const SPANS = new Set(["life", "wait", "timeout", "group"]);
const BELOW = new Set(["said", "returned", "raised", "cancelled", "sent", "received", "broken", "exit", "fires"]);
const view = { x: 0, k: 1, y: 0, scaled: false, pick: null, pinned: false, hits: [], hit: -1 };
const count = D.columns.length;
const escape = (text) => String(text).replace(/[&<>"]/g, (c) => ({ "&": "&amp;", "<": "&lt;", ">": "&gt;", '"': "&quot;" })[c]);

// ---- where columns stand, in units: a callback is one wide, and a wait wider the longer it was
let starts = [], total = 1;
function isSelect(c) { return c === 0 || D.columns[c][TURN] !== D.columns[c - 1][TURN]; }
function waited(c) { return c === 0 ? D.columns[0][TIME] : D.columns[c][TIME] - D.columns[c - 1][TIME]; }
function place() {
  const span = count ? D.columns[count - 1][TIME] : 0;
  const each = view.scaled && span > 0 ? 2 * count / span : 0;
  starts = new Float64Array(count + 1);
  for (let c = 0, x = 0; c < count; c++) {
    starts[c] = x;
    if (each) x += (isSelect(c) ? waited(c) * each : 0) + 0.5;
    else x += isSelect(c) ? 0.6 + (waited(c) > 0 ? 0.5 + Math.log10(1 + waited(c)) : 0) : 1;
    starts[c + 1] = x;
  }
  total = Math.max(starts[count], 1);
}
// a callback's middle; of a select the end of its wait
function middle(c) { return isSelect(c) ? starts[c + 1] - 0.3 : (starts[c] + starts[c + 1]) / 2; }
function columnAt(x) {
  let low = 0, high = count - 1;
  while (low < high) {
    const mid = (low + high + 1) >> 1;
    if (starts[mid] <= x) low = mid; else high = mid - 1;
  }
  return low;
}
const px = (x) => LEFT + (x - view.x) * view.k;

// ---- lanes
const lanes = D.lanes.map(([name, label, marks]) => {
  let reach = -1;
  const reaches = marks.map((mark) => (reach = Math.max(reach, mark[TO])));
  return { name, label, marks, reaches, letter: name[0], y: 0, h: HEIGHTS[name[0]] };
});
const laneOf = new Map(lanes.map((lane) => [lane.name, lane]));
let tall = 0;
for (const lane of lanes) { lane.y = tall; tall += lane.h; }
function marksIn(lane, first, last) {
  let low = 0, high = lane.marks.length;
  while (low < high) {
    const mid = (low + high) >> 1;
    if (lane.reaches[mid] < first) low = mid + 1; else high = mid;
  }
  const found = [];
  for (let i = low; i < lane.marks.length && lane.marks[i][FROM] <= last; i++) {
    if (lane.marks[i][TO] >= first) found.push(lane.marks[i]);
  }
  return found;
}
// links by the buckets of columns that they touch
const BUCKET = 64;
const buckets = new Map();
D.links.forEach((link, i) => {
  for (let b = Math.floor(link[2] / BUCKET); b <= Math.floor(link[4] / BUCKET); b++) {
    if (!buckets.has(b)) buckets.set(b, []);
    buckets.get(b).push(i);
  }
});
function linksIn(first, last) {
  const found = new Set();
  for (let b = Math.floor(first / BUCKET); b <= Math.floor(last / BUCKET); b++) {
    for (const i of buckets.get(b) || []) found.add(i);
  }
  return [...found].map((i) => D.links[i]);
}

// ---- drawing: strings of SVG
function size() {
  const box = $("picture").getBoundingClientRect();
  return [Math.max(box.width, 320), Math.max(box.height, 120)];
}
function cut(text, width, each) {
  const most = Math.floor(width / each);
  if (text.length <= most) return text;
  return most < 4 ? "" : text.slice(0, most - 1) + "\u2026";
}
function drawSpan(mark, lane, y, width) {
  const [from, to, kind, text] = mark;
  const whole = kind === "life";
  const a = Math.max(px(whole ? starts[from] : middle(from)), LEFT - 4);
  const b = Math.min(px(whole ? starts[to + 1] : middle(to)), width + 4);
  const w = Math.max(b - a, 1.5);
  if (whole) return `<rect class="life ${lane.letter}" x="${a}" y="${y + 5}" width="${w}" height="${lane.h - 10}" rx="4"/>`;
  if (kind === "wait") {
    const words = cut(text, w - 26, CHAR);
    const at = y + lane.h / 2;
    return `<rect class="wait" x="${a}" y="${at - 1.5}" width="${w}" height="3"/>`
      + (words ? `<text class="note" x="${a + 12}" y="${at - 6}">${escape(words)}</text>` : "");
  }
  return `<rect class="${kind} span" x="${a}" y="${y + 6.5}" width="${w}" height="${lane.h - 13}" rx="5"/>`;
}
// Spans of a few pixels are one path for each kind, and what falls on one that was drawn is left out.
function drawSpans(marks, lane, y, width) {
  const thin = new Map(), edge = new Map();
  let out = "";
  for (const mark of marks) {
    const kind = mark[KIND];
    if (!SPANS.has(kind)) continue;
    const a = px(middle(mark[FROM])), w = px(middle(mark[TO])) - a;
    if (kind === "life" || w > 4) out += drawSpan(mark, lane, y, width);
    else if (a + w > LEFT && a + w - (edge.has(kind) ? edge.get(kind) : -99) > 0.8) {
      const h = kind === "wait" ? 3 : lane.h - 13;
      edge.set(kind, a + w);
      thin.set(kind, (thin.get(kind) || "") + `M${a.toFixed(1)} ${y + (lane.h - h) / 2}h${Math.max(w, 1).toFixed(1)}v${h}h${-Math.max(w, 1).toFixed(1)}z`);
    }
  }
  return out + [...thin].map(([kind, path]) => `<path class="${kind} span" d="${path}"/>`).join("");
}
function drawSpanText([from, to, kind, text], lane, y, width) {
  if ((kind !== "timeout" && kind !== "group") || (to - from) * view.k < 4) return "";
  const a = Math.max(px(middle(from)), LEFT), b = Math.min(px(middle(to)), width);
  const words = cut(text, b - a - 12, CHAR);
  return words ? `<text class="${kind}" x="${a + 7}" y="${y + lane.h / 2 + 4}">${escape(words)}</text>` : "";
}
// one path for each kind of mark in a lane; where many fall on a pixel one is drawn
const SHAPES = {
  step: (x, y, w) => `M${x - w / 2} ${y - 7}h${w}v14h${-w}z`,
  handle: (x, y) => `M${x - 1} ${y - 4}h2v8h-2z`,
  opens: (x, y) => `M${x - 1.5} ${y - 12}h3v24h-3z`,
  closes: (x, y) => `M${x - 1.5} ${y - 9}h3v18h-3z`,
  sent: (x, y) => `M${x} ${y - 13}l5 9h-10z`,
  received: (x, y) => `M${x} ${y + 13}l5 -9h-10z`,
  fires: (x, y, w) => { const half = Math.min(7, 1 + w / 2); return `M${x} ${y - 9}l${half} 9l${-half} 9l${-half} -9z`; },
  said: (x, y) => `M${x - 2.5} ${y + 9.5}h5v3h-5z`,
  returned: (x, y) => `M${x - 4} ${y - 9}h8v18h-8z`,
  broken: (x, y) => `M${x - 6} ${y - 4}l2 -2l4 4l4 -4l2 2l-4 4l4 4l-2 2l-4 -4l-4 4l-2 -2l4 -4z`,
};
Object.assign(SHAPES, { wakeup: SHAPES.step, exit: SHAPES.returned, raised: SHAPES.returned, cancelled: SHAPES.returned });
function drawMarks(lane, y, marks) {
  const paths = new Map(), edge = new Map();
  const w = Math.max(1.5, Math.min(16, view.k * 0.72));
  for (const mark of marks) {
    const kind = mark[KIND];
    const x = Math.round(px(middle(mark[FROM])) * 10) / 10;
    if (SPANS.has(kind) || x < LEFT - 12 || x - (edge.has(kind) ? edge.get(kind) : -99) < 1.2) continue;
    edge.set(kind, x);
    paths.set(kind, (paths.get(kind) || "") + SHAPES[kind](x, y + lane.h / 2, w));
  }
  return [...paths].map(([kind, path]) => `<path class="${kind}" d="${path}"/>`).join("");
}
// what was said, sent, received and come to, under the marks, as far as there is room
function drawTexts(lane, y, marks, width) {
  const places = [];
  for (const mark of marks) {
    if (!BELOW.has(mark[KIND]) || (mark[KIND] === "fires" && lane.letter === "O")) continue;
    const x = px(middle(mark[FROM]));
    if (x < LEFT) continue;
    const last = places[places.length - 1];
    if (last && last.x === x) last.parts.push(mark); else places.push({ x, parts: [mark] });
  }
  let out = "";
  places.forEach((one, i) => {
    let room = (i + 1 < places.length ? places[i + 1].x : width) - one.x - 4;
    let line = "";
    for (const part of one.parts) {
      const text = cut(part[TEXT], room, MONO);
      if (!text) break;
      line += `<tspan class="${part[KIND]}" ${line ? 'dx="9"' : ""}>${escape(text)}</tspan>`;
      room -= text.length * MONO + 9;
    }
    if (line) out += `<text class="said" x="${one.x - 2}" y="${y + lane.h - 3}">${line}</text>`;
  });
  return out;
}
function yOf(name) {
  const lane = laneOf.get(name);
  return lane ? TOP + lane.y - view.y + lane.h / 2 : null;
}
function drawLink([kind, from, a, to, b]) {
  const y1 = yOf(from), y2 = yOf(to);
  if (y2 === null || (kind === "wake" && (y1 === null || from === to))) return "";
  const shift = kind === "cancel" ? 4 : kind === "spawn" ? -4 : 0;
  const x1 = px(middle(a)) + shift, x2 = px(middle(b)) + shift;
  if (y1 === null || kind !== "wake") {
    const top = y1 === null ? y2 - 22 : y1;
    const end = y2 + (y2 > top ? -8 : 8), turn = y2 > top ? -6 : 6;
    const line = `<path class="link ${kind}" d="M${x1} ${top}V${end}"/>`;
    return kind === "cancel" ? line + `<path class="arrow" d="M${x1} ${end - turn / 3}l-4 ${turn}h8z"/>` : line;
  }
  const bend = Math.max(12, (x2 - x1) / 2);
  return `<path class="link wake" d="M${x1} ${y1}C${x1 + bend} ${y1} ${x2 - bend} ${y2} ${x2} ${y2}"/>`;
}
function drawLinks(first, last, height) {
  let links = linksIn(first, last);
  if (view.k < 4 && links.length > 400) links = links.filter((link) => link[0] === "cancel");
  if (links.length > 1500) links = links.filter((link, i) => i % Math.ceil(links.length / 1500) === 0);
  return links.filter(([, from, , to]) => {
    const y1 = yOf(from), y2 = yOf(to);
    return Math.max(y1 || y2, y2) > TOP - 10 && Math.min(y1 || y2, y2) < height + 10;
  }).map(drawLink).join("");
}
function drawGap(c, a, x, height) {
  return `<rect class="gap" x="${a}" y="${TOP - 3}" width="${x - a}" height="${height}"/>`;
}
function drawTurns(first, last, width, height) {
  let lines = "", gaps = "", heads = "", free = LEFT - 30;
  let edge = -99;
  for (let c = first; c <= last; c++) {
    if (!isSelect(c)) continue;
    const a = px(starts[c]), x = px(middle(c));
    if (waited(c) > 0 && x - a > 3 && x > LEFT) gaps += drawGap(c, Math.max(a, LEFT), x, height);
    if (x < LEFT || x - edge < 5) continue;
    const more = `+${waited(c).toLocaleString("en")} ms`;
    if (waited(c) > 0 && x - Math.max(a, free - 10) > more.length * CHAR + 8) heads += `<text class="note" text-anchor="end" x="${x - 6}" y="30">${more}</text>`;
    edge = x;
    lines += `M${x} ${TOP - 5}V${height}`;
    if (x < free || x > width - 56) continue;
    heads += `<text class="soft" x="${x + 3}" y="15">turn ${D.columns[c][TURN].toLocaleString("en")}</text>`
      + `<text x="${x + 3}" y="30">${D.columns[c][TIME].toLocaleString("en")} ms</text>`;
    free = x + 74;
  }
  return [gaps + `<path class="turn" d="${lines}"/>`, heads];
}
function drawPicked(height) {
  let out = "";
  const hits = view.hits.slice(0, 4000);
  let edge = -99;
  for (const c of hits) {
    const x = px(starts[c]), w = Math.max(2, (starts[c + 1] - starts[c]) * view.k);
    if (x + w < LEFT || x - edge < 2) continue;
    edge = x;
    out += `<rect class="hits" x="${Math.max(x, LEFT)}" y="${TOP}" width="${w}" height="${height}"/>`;
  }
  if (view.pick) {
    const c = view.pick.column, x = px(starts[c]);
    if (x > LEFT - 40) out += `<rect class="pick" x="${x}" y="${TOP}" width="${Math.max(2, (starts[c + 1] - starts[c]) * view.k)}" height="${height}"/>`;
  }
  return out;
}
function drawLanes(first, last, width, height) {
  let body = "", names = "", links = drawLinks(first, last, height);
  for (const lane of lanes) {
    const y = TOP + lane.y - view.y;
    if (y + lane.h < TOP || y > height) continue;
    const marks = marksIn(lane, first, last);
    body += drawSpans(marks, lane, y, width) + drawMarks(lane, y, marks)
      + drawTexts(lane, y, marks, width) + marks.map((mark) => drawSpanText(mark, lane, y, width)).join("");
    const inner = lane.letter === "G" || lane.letter === "O" ? 30 : 16;
    names += `<path class="rule" d="M0 ${y + lane.h - 0.5}H${width}"/>`
      + `<text x="${inner}" y="${y + lane.h / 2 + 4}"><tspan class="name" font-weight="650">${lane.name}</tspan>`
      + `<tspan dx="8" fill="var(--soft)">${escape(cut(lane.label, LEFT - inner - 34, CHAR))}</tspan></text>`;
  }
  return [body, names, links];
}
function picture(width, height) {
  const first = columnAt(view.x), last = columnAt(view.x + (width - LEFT) / view.k);
  const [turns, heads] = count ? drawTurns(first, last, width, height) : ["", ""];
  const [body, names, links] = count ? drawLanes(first, last, width, height) : ["", "", ""];
  return `<rect class="ground" width="${width}" height="${height}"/>${turns}${drawPicked(height)}${body}${links}`
    + `<rect class="head" width="${width}" height="${TOP - 4}"/><path class="rule" d="M0 ${TOP - 4}H${width}"/>${heads}`
    + `<rect class="ground" y="${TOP - 3}" width="${LEFT - 8}" height="${height}"/><rect class="head" width="${LEFT - 8}" height="${TOP - 4}"/>`
    + `<text class="soft" x="16" y="22">${count ? D.columns[count - 1][TURN].toLocaleString("en") + " turns" : "no turns"}</text>`
    + `<clipPath id="under"><rect y="${TOP - 3}" width="${width}" height="${height}"/></clipPath><g clip-path="url(#under)">${names}</g>`
    + `<path class="rule" d="M${LEFT - 8} 0V${height}"/>`;
}
