// The page's moving parts: the slider over the lines, the search, and the neighbours of a bundle.
"use strict";
const data = JSON.parse(document.getElementById("data").textContent);
const byId = id => document.getElementById(id);
const PARTS = ["states", "services", "wires", "listeners"];
const NAMES = {1: "uninstalled", 2: "installed", 4: "resolved", 8: "starting", 16: "stopping", 32: "active"};
let at = data.steps.length; // how many lines have run
let chosen = null;          // the id of a bundle
let now = null;             // what holds after these lines

/** What holds after so many lines: the changes of each, one after another. */
function after(count) {
  const all = Object.fromEntries(PARTS.map(part => [part, {}]));
  for (const step of data.steps.slice(0, count)) {
    for (const part of PARTS) {
      for (const [key, value] of Object.entries(step[part])) {
        if (value === null) delete all[part][key];
        else all[part][key] = value;
      }
    }
  }
  return all;
}

const isShown = pair => pair in now.wires && (byId("platform").checked || pair in data.plain);
const shownPairs = () => Object.keys(now.wires).filter(isShown);
const title = id => `${id}: ${data.bundles[id]}`;
const drawn = () => byId("platform").checked || byId("without").innerHTML === "" ? ["with", "p"] : ["without", ""];

function wiresOf(pair) {
  const wires = now.wires[pair];
  return byId("platform").checked ? wires : wires.filter(([, name]) => name !== "osgi.ee");
}

/** Fills a list with texts, or with pairs of a text and what a click on it does. */
function fill(id, items, none = "none") {
  const rows = items.map(item => {
    const [text, go, name] = Array.isArray(item) ? item : [item];
    const row = document.createElement("li");
    row.textContent = text;
    if (go) {
      row.className = "go";
      row.addEventListener("click", go);
    }
    if (name) row.classList.add(name);
    return row;
  });
  if (rows.length === 0) {
    rows.push(Object.assign(document.createElement("li"), {textContent: none, className: "none"}));
  }
  byId(id).replaceChildren(...rows);
}

// ---- what is found, and who is near

function found() {
  const text = byId("find").value.trim().toLowerCase();
  if (text === "") return null;
  const has = name => name.toLowerCase().includes(text);
  const bundles = Object.keys(now.states).filter(id => has(title(id)));
  const owners = shownPairs().filter(pair => wiresOf(pair).some(([kind, name]) => kind !== "fragment" && has(name)));
  return [...new Set([...bundles, ...owners.map(pair => pair.split("-")[1])])];
}

function near(id) {
  return new Set([id, ...shownPairs().map(pair => pair.split("-")).filter(ends => ends.includes(id)).flat()]);
}

function choose(id) {
  chosen = chosen === id ? null : id;
  render();
}

function goTo(id) {
  chosen = id;
  render();
  const [, mark] = drawn();
  byId(`${mark}b${id}`)?.scrollIntoView({block: "center", inline: "center"});
}

// ---- what is shown

function showPicture(hits) {
  const [name, mark] = drawn();
  byId("with").hidden = name !== "with";
  byId("without").hidden = name !== "without";
  const bright = chosen !== null ? near(chosen) : hits && new Set(hits);
  for (const id of Object.keys(data.bundles)) {
    const state = NAMES[now.states[id]] ?? "absent";
    byId(`${mark}b${id}`)?.setAttribute("class", ["node", state, bright && !bright.has(id) ? "dim" : "",
      id === chosen ? "chosen" : ""].join(" "));
  }
  for (const pair of Object.keys(data.pairs)) {
    const ends = pair.split("-");
    const isNear = chosen !== null && ends.includes(chosen);
    const isDim = chosen !== null ? !isNear : bright !== null && !ends.some(id => bright.has(id));
    byId(`${mark}e${pair}`)?.setAttribute("class", ["edge", isShown(pair) ? "" : "absent", isDim ? "dim" : "",
      isNear ? "chosen" : ""].join(" "));
  }
  const svg = byId(name).querySelector("svg");
  svg.dataset.width ??= parseFloat(svg.getAttribute("width"));
  svg.setAttribute("width", `${svg.dataset.width * byId("size").value / 100}pt`);
  svg.removeAttribute("height");
}

function showChosen() {
  const part = byId("chosen");
  part.hidden = chosen === null || !(chosen in now.states);
  if (part.hidden) return;
  part.innerHTML = "<h2>Bundle</h2><b></b><h2>Needs</h2><ul id='needs'></ul><h2>Is needed by</h2><ul id='needed'></ul>"
    + "<h2>Its services</h2><ul id='its-services'></ul>";
  part.querySelector("b").textContent = `${title(chosen)}, ${NAMES[now.states[chosen]]}`;
  const told = pair => wiresOf(pair).map(([kind, name]) => kind === "bundle" ? `requires ${name}` : name).join(", ");
  const rows = (side, other) => shownPairs().map(pair => [pair, pair.split("-")])
    .filter(([, ends]) => ends[side] === chosen)
    .map(([pair, ends]) => [`${title(ends[other])}: ${told(pair)}`, () => goTo(ends[other])]);
  fill("needs", rows(0, 1));
  fill("needed", rows(1, 0));
  fill("its-services", Object.entries(now.services).filter(([, row]) => row.split(" ")[1] === chosen)
    .map(([id, row]) => `${id}: ${row.split(" ").slice(2).join(" ")}`));
}

function showHits(hits) {
  byId("hits").hidden = hits === null;
  byId("hits").innerHTML = "<h2>Found</h2><ul id='hit-list'></ul>";
  fill("hit-list", (hits ?? []).map(id => [title(id), () => goTo(id)]));
}

function showStep() {
  const step = data.steps[at - 1] ?? {line: "", replies: [], handed: []};
  byId("line").textContent = step.line;
  byId("replies").replaceChildren(...step.replies.map((reply, row) => Object.assign(document.createElement("span"), {
    textContent: `${reply}\n`, className: step.faults[row] ? "fault" : ""})));
  byId("where").textContent = at === 0 ? "before line 1" : `line ${at} of ${data.steps.length}`;
  byId("step").value = at;
  fill("handed", step.handed, "nothing");
  fill("services", Object.entries(now.services).map(([, row]) => {
    const [id, owner, ranking, classes, ...text] = row.split(" ");
    return [`${id}: ${classes} ${text.join(" ")} of ${title(owner)}, ranking ${ranking}`, () => goTo(owner)];
  }));
  fill("listeners", Object.entries(now.listeners).map(([id, owner]) => {
    const bundle = owner.replace("?", "");
    return [`${id} of ${title(bundle)}${owner.endsWith("?") ? ", perhaps" : ""}`, () => goTo(bundle)];
  }));
  fill("bundles", Object.entries(now.states).map(([id, state]) =>
    [`${title(id)}, ${NAMES[state]}`, () => goTo(id), NAMES[state]]));
  const rows = [...byId("lines").children];
  rows.forEach((row, number) => row.classList.toggle("here", number === at - 1));
}

function render() {
  now = after(at);
  const hits = found();
  showStep();
  showHits(hits);
  showChosen();
  showPicture(hits);
}

function moveTo(count) {
  at = Math.max(0, Math.min(data.steps.length, count));
  render();
}

// ---- what the mouse and the keys do

byId("step").max = data.steps.length;
byId("step").addEventListener("input", event => moveTo(Number(event.target.value)));
byId("first").addEventListener("click", () => moveTo(0));
byId("back").addEventListener("click", () => moveTo(at - 1));
byId("on").addEventListener("click", () => moveTo(at + 1));
byId("last").addEventListener("click", () => moveTo(data.steps.length));
for (const id of ["platform", "size"]) byId(id).addEventListener("input", render);
byId("find").addEventListener("input", () => {
  chosen = null;
  render();
});
byId("find").addEventListener("keydown", event => {
  const hits = found() ?? [];
  if (event.key === "Enter" && hits.length > 0) goTo(hits[0]);
});
byId("picture").addEventListener("click", event => {
  const node = event.target.closest(".node");
  if (node) choose(node.id.replace(/^p?b/, ""));
  else if (chosen !== null) choose(chosen);
});
byId("platform-switch").hidden = !data.has_platform;
fill("lines", data.steps.map((step, number) =>
  [step.line || " ", () => moveTo(number + 1), step.faults.includes(true) ? "fault" : ""]));
render();
