// The parts of the page, the sizes of the drawing, and small helpers. All parts of the script share one scope.

const LANE = 38, BAR = 24, AXIS = 44, LABELS = 92; // pixels; LABELS and AXIS are in the style sheet too
const LEAD = 12;        // room before the first step, else its mark would be cut
const TAIL = 40;        // room after the last step, where open operations run out
const NEAREST = 24;     // pixels a step at the greatest zoom of a long run
const WIDEST_FIT = 80;  // a run of a few steps is not stretched beyond this
const PRINTED = 1040;   // the width of the chart on a printed page
const LETTER = 6.6;     // a little more than the mean width of a letter in a bar

const byId = (id) => document.getElementById(id);
const scroll = byId("scroll"), plot = byId("plot"), axis = byId("axis"), tip = byId("tip"), fate = byId("fate");
const run = JSON.parse(byId("run").textContent);
const index = indexRun();
const shapes = { bars: [], cuts: [], marks: [], ties: [], shut: [] };
const layers = {};
const view = { room: 0, scale: 1, atFit: true, printing: false, picked: null, flags: [] };

function svg(name, attributes, parent) {
  const node = document.createElementNS("http://www.w3.org/2000/svg", name);
  set(node, attributes);
  if (parent) parent.appendChild(node);
  return node;
}

function set(node, attributes) {
  for (const key in attributes) node.setAttribute(key, attributes[key]);
}

function html(name, text, parent, className) {
  const node = document.createElement(name);
  node.textContent = text;
  if (className) node.className = className;
  parent.appendChild(node);
  return node;
}

const count = (n) => n.toLocaleString("en-GB");
const several = (n, one, many) => count(n) + " " + (n === 1 ? one : many);
const cm = (value) => (value === undefined ? "" : String(value).replace("-", "−") + " cm");
