"use strict";
// What is picked, the search, the whole run as a strip, and how the view moves.

// ---- the view
let waiting = false;
function draw() {
  if (waiting) return;
  waiting = true;
  requestAnimationFrame(() => {
    waiting = false;
    const [width, height] = size();
    const room = Math.max(tall - (height - TOP) + 24, 0);
    view.k = Math.min(Math.max(view.k, (width - LEFT - 20) / total), 120);
    view.x = Math.min(Math.max(view.x, -8 / view.k), Math.max(total - (width - LEFT - 150) / view.k, -8 / view.k));
    view.y = Math.min(Math.max(view.y, 0), room);
    $("picture").innerHTML = picture(width, height);
    drawMap(width);
  });
}
function zoom(factor, at) {
  const [width] = size();
  const x = at === undefined ? (width - LEFT) / 2 : Math.max(at - LEFT, 0);
  const under = view.x + x / view.k;
  view.k = Math.min(Math.max(view.k * factor, (width - LEFT - 20) / total), 120);
  view.x = under - x / view.k;
  draw();
}
function whole() {
  const [width] = size();
  view.k = Math.min((width - LEFT - (width > 640 ? 220 : 90)) / total, 40);
  view.x = -8 / view.k;
  draw();
}
function show(column, lane) {
  const [width, height] = size();
  if (view.k < 6) view.k = 14;
  const x = px(middle(column));
  if (x < LEFT + 20 || x > width - 60) view.x = middle(column) - (width - LEFT) / 2 / view.k;
  if (lane) {
    const y = TOP + lane.y - view.y;
    if (y < TOP || y + lane.h > height) view.y = lane.y - height / 2;
  }
  draw();
}

// ---- the whole run: how much ran, where cancels are, what was found
const BIN = 3;
function bins(width, columns) {
  const heights = new Map();
  for (const c of columns) {
    const bin = Math.floor(middle(c) / total * (width - 24) / BIN);
    heights.set(bin, (heights.get(bin) || 0) + 1);
  }
  return heights;
}
let strip = { width: 0, scaled: false, cancels: "", all: "" };
function bars(heights, most, full) {
  let path = "";
  for (const [bin, n] of heights) {
    const h = full || 4 + 22 * Math.log(1 + n) / Math.log(1 + most);
    path += `M${12 + bin * BIN} ${34 - h}h${BIN - 1}v${h}h-${BIN - 1}z`;
  }
  return path;
}
function drawMap(width) {
  if (strip.width !== width || strip.scaled !== view.scaled) {
    const all = bins(width, D.columns.keys());
    const cancels = bins(width, D.links.filter((link) => link[0] === "cancel").map((link) => link[2]));
    strip = { width, scaled: view.scaled, all: bars(all, Math.max(1, ...all.values())), cancels: bars(cancels, 1, 7) };
  }
  const to = (x) => 12 + x / total * (width - 24);
  const a = Math.max(to(view.x), 8), b = Math.min(to(view.x + (width - LEFT) / view.k), width - 8);
  $("map").innerHTML = `<path class="bins" d="${strip.all}"/><path class="bins cancel" d="${strip.cancels}"/>`
    + `<path class="bins hit" d="${bars(bins(width, view.hits), 1, 30)}"/>`
    + `<rect class="view" x="${a}" y="2.5" width="${Math.max(b - a, 4)}" height="35" rx="4"/>`;
}

// ---- what is picked
function columnOf(line) {
  let low = 0, high = count - 1;
  while (low < high) {
    const mid = (low + high + 1) >> 1;
    if (D.columns[mid][FIRST] <= line) low = mid; else high = mid - 1;
  }
  return low;
}
function turnOf(column) {
  const turn = D.columns[column][TURN];
  let first = column, last = column;
  while (first > 0 && D.columns[first - 1][TURN] === turn) first--;
  while (last < count - 1 && D.columns[last + 1][TURN] === turn) last++;
  return [D.columns[first][FIRST], D.columns[last][END]];
}
const CLASSES = { ">": "asks", "<": "asks", ".": "runs", T: "says" };
function traceLines(column) {
  const [first, end] = turnOf(column);
  const [, , from, to] = D.columns[column];
  const a = Math.max(first, from - 30), b = Math.min(end, to + 30);
  const words = $("words").value.trim().toLowerCase();
  return D.lines.slice(a, b).map((line, i) => {
    const it = a + i >= from && a + i < to ? " it" : "";
    const hit = words && line.toLowerCase().includes(words) ? " hit" : "";
    return `<span class="${CLASSES[line[0]] || ""}${it}${hit}">${escape(line)}</span>`;
  }).join("");
}
function scriptLines(marked) {
  return D.script.map((line, i) => `<span data-n="${i + 1}" class="${marked.has(i + 1) ? "it" : ""}">${escape(line) || " "}</span>`).join("");
}
function cardsOf(column) {
  return (D.cards[column] || []).map(([text, line]) => {
    const where = line ? `<button type="button" data-line="${line}">line ${line}</button>` : "";
    return `<li class="${/cancels|cancel of/.test(text) ? "cancel" : ""}"><span>${escape(text)}</span>${where}</li>`;
  }).join("");
}
function linesOf(column, lane) {
  const lines = (D.cards[column] || []).map((card) => card[1]).filter(Boolean);
  if (lines.length || !lane) return lines;
  return marksIn(lane, column, column).map((mark) => mark[4]).filter(Boolean);
}
function spansOf(column, lane) {
  if (!lane) return "";
  const spans = marksIn(lane, column, column).filter((mark) => mark[TEXT] && SPANS.has(mark[KIND]) && mark[FROM] !== mark[TO]);
  return spans.map((mark) => `<p>${escape(mark[TEXT])}: turn ${D.columns[mark[FROM]][TURN]} to ${D.columns[mark[TO]][TURN]}`
    + `, ${D.columns[mark[FROM]][TIME]} to ${D.columns[mark[TO]][TIME]} ms</p>`).join("");
}
function tell() {
  const { column, lane } = view.pick;
  const [turn, time] = D.columns[column];
  const marked = new Set(linesOf(column, lane));
  const cards = cardsOf(column);
  $("panel").innerHTML = `<h2>${lane ? `${lane.name} ${escape(lane.label)}` : `Turn ${turn}`}</h2>`
    + `<p>turn ${turn.toLocaleString("en")}, ${time.toLocaleString("en")} ms${view.pinned ? " (held; Esc lets go)" : ""}</p>${spansOf(column, lane)}`
    + (cards ? `<h3>What happens</h3><ul>${cards}</ul>` : "")
    + `<h3>Trace</h3><pre id="trace">${traceLines(column)}</pre>`
    + (D.script ? `<h3>Script</h3><pre id="code">${scriptLines(marked)}</pre>` : "");
  const code = $("code"), it = code && code.querySelector(".it");
  if (it) code.scrollTop = it.offsetTop - code.offsetTop - 60;
  const now = $("trace").querySelector(".it");
  if (now && view.pinned && now.getBoundingClientRect().bottom > innerHeight) now.scrollIntoView({ block: "nearest" });
}
function pick(column, lane, pinned) {
  if (view.pick && view.pick.column === column && view.pick.lane === lane && view.pinned === pinned) return;
  view.pick = { column, lane };
  view.pinned = pinned;
  tell();
  draw();
}
function under(event) {
  const box = $("picture").getBoundingClientRect();
  const x = event.clientX - box.left, y = event.clientY - box.top;
  if (!count || x < LEFT || y > box.height) return null;
  const at = y - TOP + view.y;
  const lane = y < TOP ? null : lanes.find((one) => at >= one.y && at < one.y + one.h) || null;
  return [columnAt(view.x + (x - LEFT) / view.k), lane];
}

// ---- the search
function search() {
  const words = $("words").value.trim().toLowerCase();
  const found = new Set();
  if (words && count) D.lines.forEach((line, i) => { if (line.toLowerCase().includes(words)) found.add(columnOf(i)); });
  view.hits = [...found].sort((a, b) => a - b);
  view.hit = -1;
  $("found").textContent = words ? `${view.hits.length} found` : "";
  draw();
}
function go(step) {
  if (!view.hits.length) return;
  view.hit = (view.hit + step + view.hits.length) % view.hits.length;
  const column = view.hits[view.hit];
  $("found").textContent = `${view.hit + 1} of ${view.hits.length}`;
  const name = (D.lines[D.columns[column][FIRST]].match(/^\. .*?\b([TCPLO]\d+)/) || [])[1];
  const lane = laneOf.get(D.rows[name] || name) || null;
  view.pick = null;
  pick(column, lane, true);
  show(column, lane);
}

// the first callback of a turn, as `run.html#turn=40` wants it
function goToTurn(turn) {
  const at = D.columns.findIndex((column) => column[TURN] === turn);
  if (at < 0) return;
  const column = at + 1 < count && D.columns[at + 1][TURN] === turn ? at + 1 : at;
  const lane = lanes.find((one) => marksIn(one, column, column).some((mark) => !SPANS.has(mark[KIND]))) || null;
  pick(column, lane, true);
  show(column, lane);
}

// ---- how the view moves
const pointers = new Map();
let travelled = 0;
function down(event) {
  pointers.set(event.pointerId, [event.clientX, event.clientY]);
  travelled = 0;
  $("picture").setPointerCapture(event.pointerId);
}
function move(event) {
  const before = pointers.get(event.pointerId);
  if (!before) {
    const at = under(event);
    if (at && !view.pinned) pick(at[0], at[1], false);
    return;
  }
  const dx = event.clientX - before[0], dy = event.clientY - before[1];
  if (pointers.size === 2) {
    const other = [...pointers].find(([id]) => id !== event.pointerId)[1];
    const apart = (x) => Math.max(Math.abs(x - other[0]), 20);
    zoom(apart(event.clientX) / apart(before[0]), (event.clientX + other[0]) / 2 - $("picture").getBoundingClientRect().left);
  } else {
    view.x -= dx / view.k;
    view.y -= dy;
  }
  travelled += Math.abs(dx) + Math.abs(dy);
  $("picture").classList.toggle("moving", travelled > 4);
  pointers.set(event.pointerId, [event.clientX, event.clientY]);
  draw();
}
function up(event) {
  pointers.delete(event.pointerId);
  $("picture").classList.remove("moving");
  const at = under(event);
  if (travelled > 4 || !at) return;
  const same = view.pinned && view.pick.column === at[0] && view.pick.lane === at[1];
  view.pick = null;
  pick(at[0], at[1], !same);
}
function wheel(event) {
  event.preventDefault();
  const [, height] = size();
  const scrolls = tall > height - TOP;
  if (event.ctrlKey || event.metaKey || (!scrolls && !event.shiftKey && Math.abs(event.deltaY) > Math.abs(event.deltaX))) {
    zoom(Math.exp(-event.deltaY * 0.002), event.clientX - $("picture").getBoundingClientRect().left);
    return;
  }
  if (event.shiftKey) view.x += event.deltaY / view.k;
  else { view.x += event.deltaX / view.k; view.y += event.deltaY; }
  draw();
}
function keys(event) {
  if (event.target === $("words")) {
    if (event.key === "Escape") $("picture").focus();
    return;
  }
  const [width, height] = size();
  const moves = {
    ArrowLeft: () => { view.x -= (width - LEFT) / view.k / 8; }, ArrowRight: () => { view.x += (width - LEFT) / view.k / 8; },
    ArrowUp: () => { view.y -= 60; }, ArrowDown: () => { view.y += 60; },
    PageUp: () => { view.y -= height - TOP; }, PageDown: () => { view.y += height - TOP; },
    Home: () => { view.x = 0; }, End: () => { view.x = total; },
    "+": () => zoom(1.4), "=": () => zoom(1.4), "-": () => zoom(1 / 1.4), 0: whole,
    "/": () => $("words").focus(), Escape: () => { view.pinned = false; if (view.pick) tell(); },
  };
  if (event.ctrlKey || event.metaKey || event.altKey || !moves[event.key]) return;
  event.preventDefault();
  moves[event.key]();
  draw();
}
function save() {
  const [width, height] = size();
  const style = document.querySelector("style").textContent.replace(/:root/g, "svg").replace("color-scheme: light dark;", "");
  const text = `<svg xmlns="http://www.w3.org/2000/svg" width="${width}" height="${height}" viewBox="0 0 ${width} ${height}"><style>${style}</style>${picture(width, height)}</svg>`;
  const link = document.createElement("a");
  link.href = URL.createObjectURL(new Blob([text], { type: "image/svg+xml" }));
  link.download = `${D.title || "run"}.svg`;
  link.click();
  URL.revokeObjectURL(link.href);
}

// ---- the page
function verdict() {
  if (D.last.startsWith("= returned")) return "good";
  return /^(= raised|= cancelled|!)/.test(D.last) ? "bad" : "other";
}
const LEGEND = [["step", "a step"], ["wait", "a wait"], ["cancel", "a cancel"], ["timeout", "a timeout"], ["group", "a group"],
  ["sent", "bytes sent"], ["got", "bytes received"], ["wake", "who wakes whom"], ["spawn", "who makes whom"]];
function begin() {
  $("title").textContent = D.title || "A run";
  $("last").textContent = D.last || "(the trace has no last line)";
  $("last").className = verdict();
  $("legend").innerHTML = LEGEND.map(([name, text]) => `<span><i style="background:var(--${name})"></i>${text}</span>`).join("")
    + (D.script && D.why ? `<span>${escape(D.why)}</span>` : "");
  place();
  whole();
  if (count) pick(0, null, false);
  if (count && /^#turn=\d+$/.test(location.hash)) goToTurn(Number(location.hash.slice(6)));
  $("picture").addEventListener("pointerdown", down);
  $("picture").addEventListener("pointermove", move);
  $("picture").addEventListener("pointerup", up);
  $("picture").addEventListener("pointercancel", (event) => pointers.delete(event.pointerId));
  $("picture").addEventListener("wheel", wheel, { passive: false });
  const jump = (event) => {
    if (event.type === "pointermove" && !event.buttons) return;
    const [width] = size();
    view.x = (event.offsetX - 12) / (width - 24) * total - (width - LEFT) / view.k / 2;
    draw();
  };
  $("map").addEventListener("pointerdown", jump);
  $("map").addEventListener("pointermove", jump);
  $("words").addEventListener("input", search);
  $("words").addEventListener("keydown", (event) => { if (event.key === "Enter" && event.shiftKey) { event.preventDefault(); go(-1); } });
  $("search").addEventListener("submit", (event) => { event.preventDefault(); go(1); });
  $("before").addEventListener("click", () => go(-1));
  $("in").addEventListener("click", () => zoom(1.5));
  $("out").addEventListener("click", () => zoom(1 / 1.5));
  $("whole").addEventListener("click", whole);
  $("scale").addEventListener("click", () => { view.scaled = !view.scaled; $("scale").setAttribute("aria-pressed", view.scaled); place(); whole(); });
  $("save").addEventListener("click", save);
  $("panel").addEventListener("click", (event) => {
    const line = event.target.dataset.line;
    const code = $("code");
    if (line && code) code.scrollTop = code.children[line - 1].offsetTop - code.offsetTop - 60;
  });
  addEventListener("keydown", keys);
  addEventListener("resize", draw);
}
begin();
