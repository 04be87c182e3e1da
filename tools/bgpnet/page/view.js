// The page of a run: draws the state behind an event, and obeys buttons, keys and links.
"use strict";

const SVG = "http://www.w3.org/2000/svg";
const RADIUS = 24, SIDE = 5, PLACES = {outbox: 0.3, pipe: 0.5, taken: 0.7};
const LINE = 25, MOST_PATHS = 5; // of the texts beside a router
const LANE = 150, ROW = 34, TOP = 56, LEFT = 96, RIGHT = 260, MOST_ROWS = 24, LEAST_ROWS = 6; // of the chart
const EDGES = 40; // of a part of the page, with a bar to scroll by
const FAR = 10; // how many events the page keys go
const FEW = 12; // so many routers have their paths written beside them, and their lines in the chart

const run = new Run(JSON.parse(document.getElementById("run").textContent));
const page = {at: 0, router: run.numbers[0], prefix: run.prefixes[0] || "", timer: null, state: run.states[0]};
const find = (id) => document.getElementById(id);

function element(parent, tag, attributes = {}, text = null) {
  const made = parent.appendChild(document.createElementNS(SVG, tag));
  for (const [name, value] of Object.entries(attributes)) made.setAttribute(name, value);
  if (text !== null) made.textContent = text;
  return made;
}

function nameOf(number) {
  const {name} = run.routers.find((router) => router.number === number);
  return name ? `${number} ${name}` : number;
}

// ---- the network

function pointOn([x, y, bendX, bendY, toX, toY], part) {
  const rest = 1 - part;
  return [rest * rest * x + 2 * rest * part * bendX + part * part * toX,
    rest * rest * y + 2 * rest * part * bendY + part * part * toY];
}

// The curve of a link from one router to another.
function curveOf(one, other) {
  const link = run.links.find(({ends}) => ends.includes(one) && ends.includes(other));
  const [x, y, bendX, bendY, toX, toY] = link.curve;
  return link.ends[0] === one ? link.curve : [toX, toY, bendX, bendY, x, y];
}

// A point of the way from one router to another, a little beside the link.
function beside(one, other, part) {
  const curve = curveOf(one, other), [x, y] = pointOn(curve, part);
  const away = [curve[4] - curve[0], curve[5] - curve[1]], length = Math.hypot(...away) || 1;
  return [x - away[1] / length * SIDE, y + away[0] / length * SIDE];
}

function drawLinks(svg, state) {
  for (const {ends: [one, other], curve: [x, y, bendX, bendY, toX, toY]} of run.links) {
    const isUp = state.isEstablished(one, other) && state.isEstablished(other, one);
    const line = element(svg, "path", {class: isUp ? "link" : "link down", d: `M${x} ${y}Q${bendX} ${bendY} ${toX} ${toY}`});
    element(line, "title", {}, `${one} to ${other}: ${state.session[one][other]}; ${other} to ${one}: ${state.session[other][one]}`);
  }
}

function drawRoutes(svg, state) {
  for (const router of run.numbers) {
    const [, next] = state.path(router, page.prefix).split("-");
    if (!next || !run.peers[router].includes(next)) continue;
    const length = Math.hypot(...[0, 1].map((axis) => pointOn(curveOf(router, next), 1)[axis] - pointOn(curveOf(router, next), 0)[axis]));
    const clear = Math.min(0.4, (RADIUS + 4) / length), points = [];
    for (let part = clear; part < 1 - clear + 0.001; part += (1 - 2 * clear) / 8) points.push(beside(router, next, part));
    element(svg, "path", {class: "route", d: `M${points.map((point) => point.map((number) => number.toFixed(1)).join(" ")).join("L")}`});
  }
}

// The snapshot that is shown: the last that a router began to record.
function snapshotOf(state) {
  return Object.keys(state.snapshots).map(Number).sort((one, other) => other - one)[0];
}

function drawUnderWay(svg, state) {
  const snapshot = snapshotOf(state);
  for (const name of run.ways) {
    const [one, other] = name.split(" "), counts = {};
    for (const item of state.underWay(name)) {
      const number = counts[item.place] = (counts[item.place] || 0) + 1;
      const [x, y] = beside(one, other, PLACES[item.place] + 0.05 * (number - 1));
      const isAcross = snapshot !== undefined && state.isAcross(snapshot, one, other, item.at);
      const kind = `${item.path === "none" ? "withdraws" : "announces"}${item.prefix === page.prefix ? "" : " other"}`;
      const dot = element(svg, "g", {class: `update ${kind}${isAcross ? " across" : ""}`, transform: `translate(${x.toFixed(1)} ${y.toFixed(1)})`});
      element(dot, "path", {d: item.path === "none" ? "M-8 7L8 7L0 -8z" : "M-7 0a7 7 0 1 0 14 0a7 7 0 1 0 -14 0"});
      element(dot, "title", {}, `${one} tells ${other} ${item.prefix} ${item.path}: ${item.place === "outbox" ? "in its outbox" : item.place === "pipe" ? "in the pipe" : "taken, not handled"}`);
    }
  }
}

function drawRouters(svg, state) {
  const snapshot = snapshotOf(state);
  for (const {number, x, y, texts} of run.routers) {
    const kinds = ["router"];
    if (run.origins[page.prefix] === number) kinds.push("origin");
    if (number === page.router) kinds.push("chosen");
    if (snapshot !== undefined && state.snapshots[snapshot].recorded[number]) kinds.push("recorded");
    const path = state.path(number, page.prefix);
    const group = element(svg, "g", {class: kinds.join(" "), tabindex: 0, role: "button", "data-router": number,
      "aria-label": `router ${nameOf(number)}, keeps ${path}`, transform: `translate(${x} ${y})`});
    element(group, "circle", {r: RADIUS});
    if (kinds.includes("recorded")) element(group, "rect", {class: "mark", x: RADIUS - 8, y: -RADIUS - 4, width: 14, height: 14});
    element(group, "text", {class: "number", y: 7, ...(number.length > 3 ? {textLength: 2 * RADIUS - 6, lengthAdjust: "spacingAndGlyphs"} : {})}, number);
    if (page.prefix && run.numbers.length <= FEW) drawTexts(svg, number, texts, path);
  }
}

// The paths of a router's rule, the best first, the kept one marked; without a rule the path that it keeps.
function drawTexts(svg, router, {x, y, anchor}, path) {
  const ranked = run.origins[page.prefix] === router ? null : run.ruleOf(router, page.prefix);
  const lines = !ranked ? [path] : ranked.length > MOST_PATHS ? [...ranked.slice(0, MOST_PATHS - 1), ".."] : ranked;
  lines.forEach((line, place) => element(svg, "text", {class: line === path ? "path keeps" : "path", "text-anchor": anchor,
    x, y: y + LINE * (place + 0.8)}, line));
}

function drawNetwork(state) {
  const svg = find("network");
  const focused = document.activeElement && document.activeElement.dataset && document.activeElement.dataset.router;
  svg.replaceChildren();
  svg.setAttribute("width", run.width);
  svg.setAttribute("height", run.height);
  const marker = element(element(svg, "defs"), "marker", {id: "tip", viewBox: "0 0 10 10", refX: 9, refY: 5, markerWidth: 5, markerHeight: 5, orient: "auto"});
  element(marker, "path", {class: "tip", d: "M0 0L10 5L0 10z"});
  for (const draw of [drawLinks, drawRoutes, drawUnderWay, drawRouters]) draw(svg, state);
  if (focused) svg.querySelector(`[data-router="${focused}"]`).focus();
}

// ---- the chart

// The routers that have a line in the chart: all, or the chosen one and its peers.
function charted() {
  if (run.numbers.length <= FEW) return run.numbers;
  return run.numbers.filter((number) => number === page.router || run.peers[page.router].includes(number));
}

// The chart of the whole run: its rows, each of one event or of seconds before it, and the arrows between them. It is
// made anew where other things are to be shown.
function chartOf() {
  const columns = charted(), isAll = find("all").checked, made = [...columns, page.prefix, isAll].join(" ");
  if (page.chart && page.chart.made === made) return page.chart;
  const rows = [], arrows = [], open = new Map(), hasWay = (way) => way.split(" ").every((router) => columns.includes(router));
  const clocks = {};
  let shownTime = 0;
  const rowOf = (number) => {
    const time = Math.max(0, ...Object.values(clocks));
    if (time > shownTime) rows.push({number, seconds: `${time - shownTime} s`}), shownTime = time;
    if (!rows.length || rows[rows.length - 1].number !== number || rows[rows.length - 1].seconds) rows.push({number, marks: []});
    return rows.length - 1;
  };
  const begin = (number, key, arrow) => {
    arrows.push({...arrow, from: rowOf(number), to: null});
    open.set(key, arrows[arrows.length - 1]);
  };
  const end = (number, key) => {
    if (open.has(key)) open.get(key).to = rowOf(number);
  };
  const read = (shown, number) => {
    const {kind, way, router} = shown;
    if (kind === "second") clocks[router] = (clocks[router] || 0) + 1;
    else if (way ? !hasWay(way) : !columns.includes(router) || kind === "keeps" && shown.prefix !== page.prefix) return;
    else if (kind === "tells") begin(number, `${way} ${shown.at}`, {way, kind: shown.path === "none" ? "withdraws" : "announces",
      text: shown.path === "none" ? "withdraw" : shown.path, isOther: shown.prefix !== page.prefix});
    else if (kind === "hears") end(number, `${way} ${shown.from}`);
    else if (kind === "puts" && isAll && !shown.item.path) begin(number, shown.item, {way, text: shown.item.what,
      kind: shown.item.what.startsWith("marker") ? "marker" : "thin"});
    else if (kind === "takes") end(number, shown.item);
    else if (!way) rows[rowOf(number)].marks.push(shown);
  };
  run.rows.forEach((all, place) => all.forEach((shown) => read(shown, place + 1)));
  page.chart = {made, columns, rows, arrows};
  return page.chart;
}

function drawMark(svg, mark, x, y) {
  if (mark.kind === "keeps") {
    const wide = 14 + 12 * mark.path.length;
    element(svg, "rect", {class: mark.path === "none" ? "kept none" : "kept", x: x - wide / 2, y: y - 14, width: wide, height: 28});
    element(svg, "text", {class: "number", x, y: y + 7}, mark.path);
  } else if (mark.kind === "records") {
    element(svg, "rect", {class: "mark", x: x - 8, y: y - 8, width: 16, height: 16});
  } else if (mark.kind === "command") {
    element(svg, "path", {class: "command", d: `M${x} ${y - 9}l9 9l-9 9l-9 -9z`});
  }
}

// What happened in the row of an event, at the line of its router, and in words beside it.
function drawRow(svg, row, x, y) {
  element(svg, "text", {class: "event", x: LEFT - 52, y: y + 6}, row.number);
  for (const mark of row.marks) drawMark(svg, mark, x(mark.router), y);
  const said = row.marks.filter((mark) => mark.text), isUp = said.some((mark) => mark.isUp);
  if (said.length) element(svg, "text", {class: isUp ? "said good" : "said", x: x(said[0].router) + 14, y: y + 6}, said.map((mark) => mark.text).join(", "));
}

// Seconds that passed before the next event: a line across.
function drawSeconds(svg, row, right, y) {
  element(svg, "line", {class: "second", x1: LEFT - 40, x2: right, y1: y, y2: y});
  element(svg, "text", {class: "said", x: LEFT - 36, y: y - 5}, row.seconds);
}

// An arrow from where something is told or put to where it is acted on or taken; half of one that is under way.
function drawArrow(svg, arrow, [x, y], [toX, toY]) {
  const part = arrow.isOpen ? 0.5 : 1, endX = x + (toX - x) * part, length = Math.hypot(endX - x, toY - y) || 1;
  const kind = `${arrow.kind}${arrow.isOther ? " other" : ""}`, along = [(endX - x) / length, (toY - y) / length];
  const corner = (aside) => `${endX - 12 * along[0] - aside * along[1]} ${toY - 12 * along[1] + aside * along[0]}`;
  element(svg, "path", {class: `arrow ${kind}`, d: `M${x} ${y}L${endX} ${toY}`});
  if (!arrow.isOpen) element(svg, "path", {class: `point ${kind}`, d: `M${corner(5)}L${endX} ${toY}L${corner(-5)}z`});
  element(svg, "text", {class: "said amid", x: (x + endX) / 2, y: (y + toY) / 2 - 6}, arrow.text);
}

// How many rows of the chart are seen at once: as many as its part of the page, which has a greatest height, has room for.
function rowsSeen() {
  const high = parseFloat(getComputedStyle(find("messages")).maxHeight) || Infinity;
  return Math.max(LEAST_ROWS, Math.min(MOST_ROWS, Math.floor((high - EDGES - TOP - 2 * ROW) / ROW)));
}

function drawChart(state) {
  const {columns, rows, arrows} = chartOf(), svg = find("chart"), most = rowsSeen();
  let last = rows.length;
  while (last && rows[last - 1].number > page.at) last -= 1;
  const first = Math.max(0, last - most), x = (router) => LEFT + LANE * columns.indexOf(router);
  const y = (row) => TOP + ROW * (row - first + 1), right = LEFT + LANE * (columns.length - 1);
  svg.replaceChildren();
  svg.setAttribute("width", right + RIGHT);
  svg.setAttribute("height", y(first + most) + ROW);
  for (const router of columns) {
    element(svg, "line", {class: "life", x1: x(router), x2: x(router), y1: TOP - 12, y2: y(last)});
    element(svg, "rect", {class: router === page.router ? "head chosen" : "head", x: x(router) - 34, y: 8, width: 68, height: 34, rx: 6});
    element(svg, "text", {class: "number", x: x(router), y: 32}, router);
  }
  for (const arrow of arrows) {
    const isOpen = arrow.to === null || arrow.to >= last;
    if (arrow.from >= last || !isOpen && arrow.to < first) continue;
    const [one, other] = arrow.way.split(" ").map(x);
    drawArrow(svg, {...arrow, isOpen}, [one, y(Math.max(arrow.from, first - 1))], [other, y(isOpen ? last : arrow.to)]);
  }
  drawCut(svg, state, columns, rows, first, x, y);
  for (let row = first; row < last; row += 1) {
    if (rows[row].seconds) drawSeconds(svg, rows[row], right + 40, y(row));
    else drawRow(svg, rows[row], x, y(row));
  }
}

// The cut of a snapshot: a line through what routers recorded, in the chart.
function drawCut(svg, state, columns, rows, first, x, y) {
  const snapshot = snapshotOf(state);
  if (snapshot === undefined) return;
  const points = columns.flatMap((router) => {
    const row = rows.findIndex((one) => one.number === state.snapshots[snapshot].recorded[router] && !one.seconds);
    return row < first ? [] : [`${x(router)} ${y(row)}`];
  });
  if (points.length > 1) element(svg, "path", {class: "cut", d: `M${points.join("L")}`});
}

// ---- words

function write(id, text) {
  find(id).textContent = text;
}

function drawWords(state) {
  const event = page.at ? run.events[page.at - 1] : null;
  write("event", event ? `event ${page.at} of ${run.events.length}: ${event.order}` : `before the first of ${run.events.length} events`);
  write("said", event ? event.said.join("\n") : "");
  find("slider").value = page.at;
  find("slider").setAttribute("aria-valuetext", find("event").textContent);
  for (const line of find("lines").children) {
    const isLit = event !== null && Number(line.value) === event.line;
    line.classList.toggle("lit", isLit);
    if (isLit) line.setAttribute("aria-current", "step"), find("lines").scrollTop = line.offsetTop - find("lines").clientHeight / 2;
    else line.removeAttribute("aria-current");
  }
  write("chosen", `router ${nameOf(page.router)}`);
  write("why", state.why(page.router).slice(1).join("\n"));
  const decided = Object.entries(state.snapshots).map(([number, {recorded, isDecided}]) =>
    isDecided ? run.verdicts[number] || `snapshot ${number} decided` : `snapshot ${number}: ${Object.keys(recorded).length} of ${run.numbers.length} recorded`);
  write("snapshots", decided.join("\n"));
}

// ---- going on

function show(at) {
  const next = Math.min(Math.max(at, 0), run.events.length);
  if (next === page.at + 1 && page.state !== run.states[0]) page.state.pass();
  else if (next !== page.at || page.state === run.states[0]) page.state = run.behind(next);
  page.at = next;
  for (const draw of [drawNetwork, drawChart, drawWords]) draw(page.state);
  history.replaceState(null, "", `#event=${page.at}&router=${page.router}${page.prefix ? `&prefix=${page.prefix}` : ""}`);
  if (page.at === run.events.length) stop();
}

// The number of the last event of a line of the schedule before or behind the one that is shown.
function endOfLine(direction) {
  const line = page.at ? run.events[page.at - 1].line : 0;
  if (direction > 0) {
    let at = page.at + 1;
    while (at < run.events.length && run.events[at].line === run.events[at - 1].line) at += 1;
    return at;
  }
  let at = page.at - 1;
  while (at > 0 && run.events[at - 1].line === line) at -= 1;
  return at;
}

function stop() {
  clearInterval(page.timer);
  page.timer = null;
  write("play", "play");
}

function play() {
  if (page.timer) return stop();
  if (page.at === run.events.length) show(0);
  page.timer = setInterval(() => show(page.at + 1), 1000 / Number(find("speed").value));
  write("play", "pause");
}

function choose(router) {
  page.router = router;
  show(page.at);
}

const ACTS = {
  first: () => show(0), back: () => show(page.at - 1), play, next: () => show(page.at + 1), last: () => show(run.events.length),
  "line-back": () => show(endOfLine(-1)), "line-next": () => show(endOfLine(1)),
};
const KEYS = {
  ArrowLeft: ACTS.back, ArrowRight: ACTS.next, Home: ACTS.first, End: ACTS.last, " ": play, p: ACTS["line-back"], n: ACTS["line-next"],
  PageUp: () => show(page.at - FAR), PageDown: () => show(page.at + FAR),
};

// A link to an event: `#event=12`, and to a router and a prefix besides.
function follow() {
  const words = Object.fromEntries(new URLSearchParams(location.hash.slice(1)));
  if (run.numbers.includes(words.router)) page.router = words.router;
  if (run.prefixes.includes(words.prefix)) page.prefix = words.prefix;
  find("prefix").value = page.prefix;
  show(/^\d+$/.test(words.event || "") ? Number(words.event) : page.at);
}

for (const [id, act] of Object.entries(ACTS)) find(id).addEventListener("click", act);
find("slider").addEventListener("input", () => show(Number(find("slider").value)));
find("prefix").addEventListener("change", () => (page.prefix = find("prefix").value, show(page.at)));
find("all").addEventListener("change", () => show(page.at));
find("speed").addEventListener("change", () => page.timer && (stop(), play()));
find("network").addEventListener("click", ({target}) => {
  const router = target.closest("[data-router]");
  if (router) choose(router.dataset.router);
});
document.addEventListener("keydown", (key) => {
  const isOwn = key.target.closest("select, input"), router = key.target.closest("[data-router]");
  if (key.ctrlKey || key.altKey || key.metaKey || isOwn) return;
  if (router && (key.key === "Enter" || key.key === " ")) return key.preventDefault(), choose(router.dataset.router);
  if (key.target.closest("button") && key.key === " ") return undefined;
  if (KEYS[key.key]) key.preventDefault(), KEYS[key.key]();
  return undefined;
});
window.addEventListener("hashchange", follow);
window.addEventListener("resize", () => show(page.at));
follow();
