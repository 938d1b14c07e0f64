// The run, looked up by operation and by reading.

function indexRun() {
  const ops = new Map(run.operations.map((op) => [op.number, op]));
  const lines = new Map(), puts = new Map(), takes = new Map();
  for (const op of run.operations) if (op.action === "put") puts.set(op.number, { op, at: undefined });
  for (const line of run.record) {
    for (const number of line.by) lines.set(number, line);
    if (line.effect === "put") puts.set(line.item, { op: ops.get(line.by[0]), at: line.at });
    if (line.effect === "take") takes.set(line.item, line);
  }
  return { ops, lines, puts, takes, doubles: run.record.filter(isDouble) };
}

function isDouble(line) {
  return line !== undefined && line.effect === "take" && line.by.length > 1;
}

// The window of a process in words, and its spans of shut steps; without windows nothing is shut.
const windowOf = (process) => (run.windows ? run.windows.lanes[process] : { window: "", shut: [] });

const isOpen = (op) => op.ending === "open";
const isDropped = (op) => op.ending === "dropped";

// The step up to which an operation went on; none if it is open.
const endOf = (op) => (isDropped(op) ? op.dropped : op.last);

// The reading that an operation has to do with: one that has not ended has its reading in the record only.
function readingOf(op) {
  const line = index.lines.get(op.number);
  if (line && line.item !== undefined) return line.item;
  return op.action === "put" ? op.number : op.item;
}

function valueOf(item) {
  const put = index.puts.get(item);
  return put ? put.op.value : undefined;
}
