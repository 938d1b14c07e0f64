// What the reader points at, clicks, turns and types.

function opUnder(target) {
  const node = target.closest("[data-op]");
  return node ? index.ops.get(Number(node.dataset.op)) : undefined;
}

function readingUnder(target) {
  const op = opUnder(target), tied = target.closest("[data-item]");
  if (op) return readingOf(op);
  return tied ? Number(tied.dataset.item) : undefined;
}

// The report's very lines: an operation's own and the record's, in that order for a bar; and when it was dropped, which no line tells.
function linesUnder(target) {
  const op = opUnder(target), tied = target.closest(".tie");
  if (tied) return [index.takes.get(Number(tied.dataset.item)).line];
  if (!op) return shutUnder(target);
  const line = index.lines.get(op.number), effect = line ? [line.line] : [];
  const drop = isDropped(op) ? ["dropped at step " + count(op.dropped)] : [];
  if (target.closest(".effect")) return [...effect, op.line, ...drop];
  if (target.closest(".cut")) return [...drop, op.line, ...effect];
  return [op.line, ...drop, ...effect];
}

// What was shut, and why.
function shutUnder(target) {
  const part = target.closest(".shut");
  if (!part) return [];
  const { process } = part.dataset, [from, to] = [part.dataset.from, part.dataset.to].map((step) => count(Number(step)));
  return ["process " + process + " shut: " + (from === to ? "step " + from : "steps " + from + " to " + to), "its window: " + windowOf(process).window];
}

function showTip(event) {
  const lines = linesUnder(event.target);
  tip.hidden = lines.length === 0;
  if (tip.hidden) return;
  tip.textContent = lines.join("\n");
  const x = Math.min(event.clientX + 14, innerWidth - tip.offsetWidth - 6);
  const below = event.clientY + 18, y = below + tip.offsetHeight > innerHeight ? event.clientY - tip.offsetHeight - 10 : below;
  tip.style.left = Math.max(4, x) + "px";
  tip.style.top = y + "px";
}

function onClick(event) {
  const item = readingUnder(event.target);
  if (item !== undefined) pick(item, plot.contains(event.target));
}

function onDoubleClick(event) {
  const op = opUnder(event.target);
  if (op) zoomTo(op.first, endOf(op) || steps);
}

function onWheel(event) {
  if (!event.ctrlKey) return;
  event.preventDefault(); // else the browser zooms the whole page
  zoomBy(Math.exp(-event.deltaY * 0.003), Math.max(0, event.clientX - scroll.getBoundingClientRect().left - LABELS));
}

function onKey(event) {
  if (event.ctrlKey || event.metaKey || event.altKey) return;
  if (event.key === "Escape") return clear();
  if (event.target === byId("reading")) return; // a sign typed there is part of the number
  if (event.key === "+" || event.key === "=") zoomBy(2);
  if (event.key === "-" || event.key === "−") zoomBy(0.5);
}

function onFragment() {
  const found = /^#reading=(\d+)$/.exec(location.hash);
  if (found) pick(Number(found[1]));
  else if (view.picked !== null) clear();
}

// A printed page has the whole run on it, whatever was in the window.
function onPaper(begin) {
  if (begin) view.kept = [view.scale, scroll.scrollLeft];
  view.printing = begin;
  setScale(begin ? 0 : view.kept[0]);
  if (!begin) scroll.scrollLeft = view.kept[1];
}

function listen() {
  plot.addEventListener("pointermove", showTip);
  plot.addEventListener("pointerover", showTip);
  plot.addEventListener("pointerleave", () => { tip.hidden = true; });
  plot.addEventListener("dblclick", onDoubleClick);
  for (const node of [plot, byId("left"), byId("doubles")]) node.addEventListener("click", onClick);
  scroll.addEventListener("scroll", () => { tip.hidden = true; requestAnimationFrame(placeView); });
  scroll.addEventListener("wheel", onWheel, { passive: false });
  byId("nearer").addEventListener("click", () => zoomBy(2));
  byId("farther").addEventListener("click", () => zoomBy(0.5));
  byId("whole").addEventListener("click", () => setScale(0));
  byId("clear").addEventListener("click", () => clear());
  byId("reading").addEventListener("change", (event) => (event.target.value ? pick(Number(event.target.value)) : clear()));
  document.addEventListener("keydown", onKey);
  addEventListener("hashchange", onFragment);
  new ResizeObserver(() => { if (!view.printing) setScale(view.atFit ? 0 : view.scale); }).observe(scroll);
  addEventListener("beforeprint", () => onPaper(true));
  addEventListener("afterprint", () => onPaper(false));
}
