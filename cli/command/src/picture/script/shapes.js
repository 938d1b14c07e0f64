// The shapes: made once, and put into their places at each zoom. Step s covers the unit from s - 1 to s.

const steps = Math.max(1, run.steps);
const height = Math.max(1, run.processes) * LANE;
const middle = (op) => op.process * LANE + LANE / 2;
const xAt = (end) => LEAD + end * view.scale; // where a step ends; 0 is the beginning
const xOfStep = (s) => xAt(s - 0.5);
const width = () => Math.max(view.room, Math.floor(xAt(steps) + TAIL));
const fitScale = () => Math.min(WIDEST_FIT, (view.room - LEAD - TAIL) / steps);

// An open bar runs out of the run, a dropped one ends in the middle of its drop, where the cross stands.
function extent(op) {
  const from = xAt(op.first - 1);
  const least = isOpen(op) ? 9 : 2;
  const to = isOpen(op) ? width() - 5 : isDropped(op) ? xOfStep(op.dropped) : xAt(op.last);
  return [from, Math.max(to, from + least)];
}

function makeShapes() {
  for (const name of ["lanes", "shut", "grid", "guides", "bars", "labels", "cuts", "ties", "link", "effects"]) {
    layers[name] = svg("g", {}, plot);
  }
  layers.ticks = svg("g", {}, axis);
  layers.flags = svg("g", {}, axis);
  for (let p = 0; p < run.processes; p++) {
    svg("rect", { class: p % 2 ? "lane even" : "lane", x: 0, y: p * LANE, width: "100%", height: LANE }, layers.lanes);
    const label = html("div", "process " + p, byId("lanes"));
    label.style.height = LANE + "px";
    if (run.windows) label.title = "its window: " + windowOf(p).window;
    for (const span of windowOf(p).shut) makeShut(p, span);
  }
  for (const op of run.operations) if (op.first !== undefined) makeBar(op);
  for (const line of run.record) {
    for (const number of line.by) makeMark(line, index.ops.get(number));
    if (isDouble(line)) makeTie(line);
  }
}

// The part of a lane in which the window of its process was shut.
function makeShut(process, [from, to]) {
  const at = { y: process * LANE, height: LANE, "data-process": process, "data-from": from, "data-to": to };
  shapes.shut.push({ from, to, node: svg("rect", { class: "shut", ...at }, layers.shut) });
}

function makeBar(op) {
  const open = isOpen(op), empty = op.ending === "empty";
  const kinds = ["bar", empty ? "empty" : op.action];
  if (open || isDropped(op)) kinds.push(op.ending);
  if (readingOf(op) !== undefined) kinds.push("leads");
  const node = svg(open ? "path" : "rect", { class: kinds.join(" "), "data-op": op.number }, layers.bars);
  if (!open) set(node, { y: middle(op) - BAR / 2, height: BAR });
  const dark = open || empty || isDropped(op);
  const label = svg("text", { class: dark ? "label dark" : "label", y: middle(op) + 4 }, layers.labels);
  shapes.bars.push({ op, node, label, words: wordings(op) });
  if (isDropped(op)) makeCut(op);
}

// A drop is a cross.
function makeCut(op) {
  const kind = readingOf(op) === undefined ? "cut" : "cut leads";
  const node = svg("path", { class: kind, d: "M-5-5L5 5M-5 5L5-5", "data-op": op.number, "data-at": op.dropped }, layers.cuts);
  shapes.cuts.push({ op, node });
}

// What a bar may say, the longest first.
function wordings(op) {
  const item = readingOf(op), n = String(op.number);
  const said = (words) => (isDropped(op) ? [words + ", dropped", words] : [words]);
  if (op.action === "put") return [...said(n + " put " + cm(op.value)), n];
  if (op.ending === "empty") return [n + " take, found nothing", n + " take", n];
  if (item === undefined) return [...said(n + " take"), n];
  return [...said(n + " take of reading " + item + ", " + cm(valueOf(item))), n + " take of " + item, n];
}

// A put's effect is a circle, a take's a diamond, and a double's diamond is bigger.
function makeMark(line, op) {
  const round = "M-5 0a5 5 0 1 0 10 0a5 5 0 1 0-10 0Z", diamond = "M0-6L6 0L0 6L-6 0Z";
  const kinds = ["effect", line.effect === "empty" ? "nothing" : line.effect, "leads"];
  if (line.item === undefined) kinds.pop();
  if (isDouble(line)) kinds.push("double");
  const node = svg("path", { class: kinds.join(" "), d: line.effect === "take" ? diamond : round,
    "data-op": op.number, "data-at": line.at }, layers.effects);
  shapes.marks.push({ line, op, node });
}

function makeTie(line) {
  const heights = line.by.map((number) => middle(index.ops.get(number)));
  const node = svg("line", { class: "tie", "data-item": line.item, y1: Math.min(...heights), y2: Math.max(...heights) }, layers.ties);
  shapes.ties.push({ line, node });
}

function place() {
  for (const sheet of [plot, axis]) sheet.setAttribute("width", width());
  plot.setAttribute("height", height);
  axis.setAttribute("height", AXIS);
  for (const { from, to, node } of shapes.shut) set(node, { x: xAt(from - 1), width: xAt(to) - xAt(from - 1) });
  for (const bar of shapes.bars) placeBar(bar);
  for (const { op, node } of shapes.cuts) placeMark(node, op.dropped, op, markSize());
  for (const { line, op, node } of shapes.marks) placeMark(node, line.at, op, markSize(line));
  for (const { line, node } of shapes.ties) set(node, { x1: xOfStep(line.at), x2: xOfStep(line.at) });
  placePick();
}

function placeMark(node, at, op, size) {
  set(node, { transform: `translate(${xOfStep(at)} ${middle(op)}) scale(${size})` });
}

// From afar the marks are smaller, so that they do not hide one another; doubles stay big.
function markSize(line) {
  const near = view.scale > 1;
  if (isDouble(line)) return near ? 1.4 : 1.1;
  return near ? 1 : 0.55;
}

function placeBar({ op, node }) {
  const [from, to] = extent(op);
  if (!isOpen(op)) return set(node, { x: from, width: to - from });
  const tooth = "l5 " + BAR / 6 + "l-5 " + BAR / 6;
  set(node, { d: `M${from} ${middle(op) - BAR / 2}H${to - 5}${tooth.repeat(3)}H${from}Z` });
}

// Ticks, flags and labels are for the part in view only, and follow the scrolling.
function placeView() {
  const from = scroll.scrollLeft, to = from + view.room;
  placeTicks(from, to);
  placeFlags(from, to);
  for (const bar of shapes.bars) placeLabel(bar, from, to);
}

function roundStep() {
  const least = 70 / view.scale, power = Math.pow(10, Math.floor(Math.log10(least)));
  const found = [1, 2, 5, 10].map((n) => n * power).find((n) => n >= least);
  return Math.max(1, Math.round(found));
}

function placeTicks(from, to) {
  const gap = roundStep();
  const begin = Math.max(1, Math.floor((from - LEAD) / view.scale / gap)), end = Math.min(run.steps, to / view.scale + 1);
  layers.ticks.textContent = layers.grid.textContent = "";
  for (let s = begin * gap; s <= end; s += gap) {
    const x = xOfStep(s), tick = svg("g", { class: "tick" }, layers.ticks);
    svg("line", { x1: x, x2: x, y1: AXIS - 6, y2: AXIS }, tick);
    svg("text", { x, y: AXIS - 10 }, tick).textContent = count(s);
    svg("line", { class: "grid", x1: x, x2: x, y1: 0, y2: height }, layers.grid);
  }
}

// A label stands in the larger free part of its bar, beside the mark, and within the window.
function placeLabel({ op, label, words }, from, to) {
  const [start, stop] = extent(op).map((x) => Math.min(Math.max(x, from), to));
  const line = index.lines.get(op.number);
  let left = start + 5, right = stop - (isDropped(op) ? 8 : 4);
  if (line && stop > start) {
    const x = xOfStep(line.at), half = 6 * markSize(line) + 3;
    if (x - half - left >= right - x - half) right = Math.min(right, x - half);
    else left = Math.max(left, x + half);
  }
  const word = words.find((text) => text.length * LETTER <= right - left) || "";
  if (label.textContent !== word) label.textContent = word;
  if (word) label.setAttribute("x", left);
}
