// The words around the chart.

function tellNumbers() {
  const line = byId("numbers"), doubles = index.doubles.length;
  byId("name").textContent = run.name;
  line.append(run.object + " · " + several(run.operations.length, "operation", "operations") + " by "
    + several(new Set(run.operations.map((op) => op.process)).size, "process", "processes") + " · " + (run.steps ? "up to step " + count(run.steps) : "no steps") + " · ");
  html("b", several(doubles, "double", "doubles"), line, doubles ? "many" : "");
  if (run.lost !== undefined) line.append(" · " + several(run.lost, "round", "rounds") + " lost");
  line.append(" · " + count(run.left.length) + " left at the end");
  const dropped = run.operations.filter(isDropped).length;
  if (dropped) line.append(" · " + count(dropped) + " dropped");
  if (run.windows) line.append(" · from " + run.windows.start + " on");
  byId("shut-key").hidden = !run.windows;
}

function chip(item, more, kind, parent) {
  const node = html("button", "", parent, kind);
  node.type = "button";
  node.dataset.item = item;
  html("b", item, node);
  node.append(cm(valueOf(item)) + more);
}

// Rounds that a queue lost: of the other objects none are counted.
function tellLost() {
  const section = byId("lost");
  section.hidden = run.lost === undefined;
  if (section.hidden) return;
  html("h2", "Lost rounds" + (run.lost ? " (" + count(run.lost) + ")" : ""), section);
  html("p", run.lost ? "So often a put or a take had to begin again, since another was faster or was left half done. Each costs radio battery, but no reading."
    : "no put and no take had to begin again", section);
}

function tellLists() {
  byId("left-head").textContent = "Left at the end" + (run.left.length ? " (" + count(run.left.length) + ", " + run.end + " first)" : "");
  for (const item of run.left) chip(item, "", "left", byId("left"));
  if (run.left.length === 0) html("p", "nothing is left", byId("left"));
  byId("doubles-head").textContent = "Doubles" + (index.doubles.length ? " (" + count(index.doubles.length) + ", in the order of the record)" : "");
  for (const line of index.doubles) chip(line.item, ", " + line.by.length + " takers", "doubled", byId("doubles"));
  if (index.doubles.length === 0) html("p", "no reading was taken twice", byId("doubles"));
  const waiting = run.operations.filter((op) => op.first === undefined).map((op) => op.number);
  byId("waiting").hidden = waiting.length === 0;
  byId("waiting").textContent = "Not begun: " + waiting.join(", ");
  const dropped = run.operations.filter(isDropped).map((op) => op.number + " at step " + count(op.dropped));
  byId("dropped").hidden = dropped.length === 0;
  byId("dropped").textContent = "Dropped: " + dropped.join("; ");
  for (const item of index.puts.keys()) {
    const option = html("option", "", byId("readings"));
    option.value = item;
    option.label = cm(valueOf(item));
  }
}
