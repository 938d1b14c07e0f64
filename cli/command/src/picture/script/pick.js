// Picking a reading: its put and its takers stand out, and its fate is told.

function takersOf(item) {
  const line = index.takes.get(item);
  return line ? line.by : [];
}

// `quiet` leaves the scrolling alone: what was clicked in the chart is in view already.
function pick(item, quiet) {
  if (!index.puts.has(item)) return clear("There is no reading " + item + " in this run.");
  view.picked = item;
  plot.classList.add("dim");
  markPicked(item);
  placePick();
  placeView();
  tellFate(item);
  remember("#reading=" + item);
  if (!quiet) bringIntoView(item);
}

function clear(why) {
  view.picked = null;
  plot.classList.remove("dim");
  markPicked(null);
  placePick();
  placeView();
  tellNothing(why);
  remember(location.pathname + location.search);
}

function markPicked(item) {
  const put = item === null ? undefined : index.puts.get(item).op, takers = new Set(item === null ? [] : takersOf(item));
  for (const { op, node, label } of shapes.bars.concat(shapes.cuts, shapes.marks)) {
    for (const shape of label ? [node, label] : [node]) {
      shape.classList.toggle("picked", op === put);
      shape.classList.toggle("taker", takers.has(op.number));
    }
  }
  for (const { line, node } of shapes.ties) node.classList.toggle("taker", line.item === item);
  for (const chip of document.querySelectorAll(".chips button")) chip.classList.toggle("on", Number(chip.dataset.item) === item);
  byId("clear").disabled = item === null;
  byId("reading").value = item === null ? "" : item;
}

// The fragment keeps the pick over a reload; some browsers forbid this for files, and it can be done without.
function remember(address) {
  try { history.replaceState(null, "", address); } catch (error) { /* the picture works all the same */ }
}

// The steps that operations span, those of an open one up to its effect; null if none has begun.
function span(numbers) {
  const begun = numbers.map((n) => index.ops.get(n)).filter((op) => op.first !== undefined);
  if (begun.length === 0) return null;
  const ends = begun.map((op) => endOf(op) || (index.lines.get(op.number) || { at: op.first }).at);
  return [Math.min(...begun.map((op) => op.first)), Math.max(...ends)];
}

const spanOf = (item) => span([index.puts.get(item).op.number, ...takersOf(item)]);

function bringIntoView(item) {
  const ends = spanOf(item);
  scroll.scrollIntoView({ block: "nearest" });
  if (ends === null) return;
  const from = xAt(ends[0] - 1), to = xAt(ends[1]);
  if (from >= scroll.scrollLeft && to <= scroll.scrollLeft + view.room) return;
  centre(to - from <= view.room ? (from + to) / 2 : xOfStep(index.puts.get(item).at || ends[0]));
}

// Guide lines through the whole chart, and the line from the put to the takers.
function placePick() {
  layers.guides.textContent = layers.link.textContent = "";
  view.flags = [];
  if (view.picked === null) return;
  const put = index.puts.get(view.picked);
  if (put.at !== undefined) view.flags.push({ at: put.at, text: "in at " + count(put.at) });
  const line = index.takes.get(view.picked);
  if (line) {
    view.flags.push({ at: line.at, text: "out at " + count(line.at) });
    if (put.at !== undefined) joinPut(put, line);
  }
  for (const { at } of view.flags) {
    svg("line", { class: "guide", x1: xOfStep(at), x2: xOfStep(at), y1: 0, y2: height }, layers.guides);
  }
}

// Flags on the axis name the steps of the guide lines; one out of view waits at the edge, and a click goes there.
function placeFlags(from, to) {
  layers.flags.textContent = "";
  let free = from + 4; // flags stand side by side, never on one another
  view.flags.forEach(({ at, text }, i) => {
    const x = xOfStep(at), long = (text.length + 2) * 7;
    const words = x < from ? "◂ " + text : x > to ? text + " ▸" : text;
    const start = Math.max(free, Math.min(x - 4, to - long * (view.flags.length - i)));
    if (words === text) svg("line", { class: "guide", x1: start + 4, x2: x, y1: 16, y2: AXIS - 20 }, layers.flags);
    const flag = svg("text", { class: "flag", x: start, y: 13 }, layers.flags);
    flag.textContent = words;
    flag.addEventListener("click", () => centre(x));
    free = start + long;
  });
}

// The line runs between the lanes as far as it can, so that it crosses no label.
function joinPut(put, line) {
  const y = middle(put.op), heights = line.by.map((number) => middle(index.ops.get(number)));
  const nearest = heights.reduce((best, h) => (Math.abs(h - y) < Math.abs(best - y) ? h : best));
  const between = nearest < y ? y - LANE / 2 : y + LANE / 2 - 1;
  for (const kind of ["link", "link core"]) {
    svg("path", { class: kind, d: `M${xOfStep(put.at)} ${y}V${between}H${xOfStep(line.at)}V${nearest}` }, layers.link);
  }
}

function tellFate(item) {
  fate.textContent = "";
  fate.classList.add("on");
  html("h2", ["Reading " + item, cm(valueOf(item))].filter(Boolean).join(", "), fate);
  zoomButton("zoom to it", spanOf(item));
  zoomButton("zoom to its takers", span(takersOf(item)));
  for (const sentence of run.fates[item] || []) html("p", sentence, fate);
}

function zoomButton(text, ends) {
  if (ends) html("button", text, fate).addEventListener("click", () => zoomTo(ends[0], ends[1]));
}

function tellNothing(why) {
  fate.textContent = "";
  fate.classList.remove("on");
  if (why) html("p", why, fate);
  html("p", "Pick a reading to see what became of it: click a bar, a tie or one of the readings below, or give its number above.", fate, "hint");
}
