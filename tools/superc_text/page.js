"use strict";
const data = JSON.parse(document.getElementById("data").textContent);
const { nodes, variables, expressions, valid, faults, expansions, tree } = data;
const form = document.querySelector("form");
const lines = document.getElementById("lines");
const told = document.getElementById("told");
const search = document.getElementById("search");
const isSource = lines.classList.contains("source");
const rows = lines.getElementsByTagName("div");
const depthAtFirst = 3;
let focused = -1;
let fault = -1;
let hits = [];
let hit = -1;

// ---- configurations

// Whether each condition holds for some, and for all, of the configurations that the controls leave.
function judge() {
  const some = [false, true];
  const all = [false, true];
  for (const [variable, children] of nodes) {
    const chosen = Number(form.elements["v" + variable].value);
    const left = chosen < 0 ? children : [children[chosen]];
    some.push(left.some((child) => some[child]));
    all.push(left.every((child) => all[child]));
  }
  return { some, all };
}

function show() {
  const { some, all } = judge();
  const away = some.flatMap((holds, condition) => (holds || condition === 0 ? [] : [".c" + condition]));
  const grey = "{background:none;color:var(--away)}";
  const places = away.map((name) => `#lines ${name},#lines ${name} a,li${name},li${name} a`).join(",");
  document.getElementById("away").textContent = away.length ? places + grey : "";
  const refusal = faults.find(([condition]) => all[condition]);
  const isOpen = faults.some(([condition]) => some[condition]);
  const verdict = refusal ? "Refused: " + refusal[1] : isOpen ? "Refused in part" : "Accepted";
  document.getElementById("verdict").textContent = some[valid] ? verdict : "Not valid";
}

// ---- the address: the chosen line and the chosen options, as #L31;CONFIG_SMP=1

function chosenLine() {
  return lines.querySelector(".chosen");
}

function writeAddress() {
  const chosen = chosenLine();
  const parts = [chosen ? chosen.id : ""];
  variables.forEach(([name, ...options], variable) => {
    const value = Number(form.elements["v" + variable].value);
    if (value >= 0) parts.push(`${name}=${options[value]}`);
  });
  const address = parts.length > 1 || parts[0] ? "#" + parts.join(";") : location.pathname + location.search;
  try {
    history.replaceState(null, "", address);
  } catch {
    location.hash = parts.join(";");
  }
}

function setOption(variable, value) {
  const control = form.elements["v" + variable];
  if (control instanceof HTMLSelectElement) control.value = String(value);
  else for (const button of control) button.checked = Number(button.value) === value;
}

function readAddress() {
  const [line, ...words] = decodeURIComponent(location.hash.slice(1)).split(";");
  if (words.length) {
    variables.forEach(([name, ...options], variable) => {
      const word = words.find((one) => one.startsWith(name + "="));
      setOption(variable, word ? options.indexOf(word.slice(name.length + 1)) : -1);
    });
  }
  const element = line && document.getElementById(line);
  if (element && element.matches("#lines div")) choose(element);
  else if (element) element.scrollIntoView();
  show();
}

// ---- lines

function open(element) {
  if (!element.classList.contains("folded")) return;
  for (const head of lines.querySelectorAll("s.closed")) toggle(head);
}

function choose(element) {
  chosenLine()?.classList.remove("chosen");
  open(element);
  element.classList.add("chosen");
  element.scrollIntoView({ block: "center" });
  showTree(element.id);
  tell(element);
}

function tell(element) {
  const block = element.closest("[data-c]");
  told.textContent = block && block.dataset.c in expressions ? "when " + expressions[block.dataset.c] : "";
}

// What n and p go to: the conditional parts of lines, or the first lines of conditional runs.
function blocks() {
  if (!isSource) return lines.getElementsByTagName("b");
  return lines.querySelectorAll("div[data-c]:has(> u:not(:empty))");
}

function step(by) {
  const all = blocks();
  if (!all.length) return;
  focused = (focused + by + all.length) % all.length;
  const element = all[focused];
  if (isSource) return choose(element);
  element.focus();
  tell(element);
  element.scrollIntoView({ block: "center" });
}

function stepFault(by) {
  const all = lines.querySelectorAll("div.fault");
  if (!all.length) return;
  fault = (fault + by + all.length) % all.length;
  choose(all[fault]);
  told.textContent = textOf(all[fault]);
}

// The line behind a line, which may be in the next block.
function behind(row) {
  return row.nextElementSibling ?? row.parentElement.nextElementSibling?.firstElementChild;
}

function toggle(head) {
  const isClosed = head.classList.toggle("closed");
  for (let row = behind(head.closest("div")); row && row.id !== head.dataset.e; row = behind(row)) {
    row.classList.toggle("folded", isClosed);
    if (!isClosed) row.querySelector("s.closed")?.classList.remove("closed");
  }
}

function expand(mark) {
  const line = mark.closest("div");
  if (line.nextElementSibling?.classList.contains("expansion")) return line.nextElementSibling.remove();
  const box = document.createElement("div");
  box.className = "expansion";
  for (const [condition, text] of expansions[mark.dataset.x]) {
    const piece = document.createElement(condition === 1 ? "span" : "b");
    if (condition !== 1) {
      piece.className = "c" + condition;
      piece.dataset.c = condition;
    }
    piece.textContent = text;
    box.append(piece, " ");
  }
  line.after(box);
}

// ---- search: a text in lines, or behind `when` in their conditions

function find() {
  const wanted = search.value.trim();
  hits.forEach((row) => row.classList.remove("hit"));
  const byCondition = wanted.startsWith("when ") ? wanted.slice(5).trim() : null;
  const named = new Set(Object.keys(expressions).filter((number) => byCondition && expressions[number].includes(byCondition)));
  const has = (row) => {
    if (byCondition === null) return textOf(row).includes(wanted);
    return named.has(row.dataset.c) || [...row.querySelectorAll("b")].some((piece) => named.has(piece.dataset.c));
  };
  hits = wanted && wanted !== "when" ? [...rows].filter(has) : [];
  hit = -1;
  document.getElementById("found").textContent = wanted ? `${hits.length} lines` : "";
}

// The source of a line, without its number and the gutter.
function textOf(row) {
  return [...row.childNodes].map((node) => (/^[IU]$/.test(node.nodeName) ? "" : node.textContent)).join("");
}

function stepHit(by) {
  if (!hits.length) return;
  if (hit >= 0) hits[hit].classList.remove("hit");
  hit = hit < 0 && by < 0 ? hits.length - 1 : (hit + by + hits.length) % hits.length;
  open(hits[hit]);
  hits[hit].classList.add("hit");
  hits[hit].scrollIntoView({ block: "center" });
  document.getElementById("found").textContent = `${hit + 1} of ${hits.length} lines`;
}

// ---- the tree of a line

function showTree(line) {
  const box = document.getElementById("tree");
  box.textContent = "";
  for (const part of (tree && tree.at[line]) || []) box.append(branch(part, "", 0));
}

function branch(number, when, depth) {
  const part = tree.parts[number];
  if (typeof part === "string") {
    const leaf = document.createElement("span");
    leaf.textContent = when + part;
    return leaf;
  }
  const [name, ...children] = part;
  const box = document.createElement("details");
  const head = document.createElement("summary");
  head.textContent = when + (name < 0 ? "choice" : tree.names[name]);
  box.append(head);
  const fill = () => {
    if (box.children.length > 1) return;
    for (const child of children) box.append(name < 0 ? branch(child[1], `when ${child[0]}: `, depth + 1) : branch(child, "", depth + 1));
  };
  box.addEventListener("toggle", fill);
  if (depth < depthAtFirst) {
    fill();
    box.open = true;
  }
  return box;
}

// ---- events

form.addEventListener("change", () => {
  show();
  writeAddress();
});
document.getElementById("reset").addEventListener("click", () => {
  form.reset();
  show();
  writeAddress();
});
lines.addEventListener("mouseover", (event) => tell(event.target));
lines.addEventListener("focusin", (event) => tell(event.target));
lines.addEventListener("click", (event) => {
  const target = event.target;
  if (target.matches("s")) return toggle(target);
  if (target.matches("em")) return expand(target);
  const row = target.closest("div");
  if (target.matches("i") && row.id) {
    choose(row);
    writeAddress();
  }
  const block = isSource ? row : target.closest("b");
  focused = [...blocks()].indexOf(block);
  tell(target);
});
search.addEventListener("input", find);
search.addEventListener("keydown", (event) => {
  if (event.key === "Enter") stepHit(event.shiftKey ? -1 : 1);
  if (event.key === "Escape") search.blur();
  event.stopPropagation();
});
document.addEventListener("keydown", (event) => {
  if (event.ctrlKey || event.altKey || event.metaKey || event.target.tagName === "SELECT") return;
  if (event.key === "Enter" && event.target.matches?.("s")) toggle(event.target);
  if (event.key === "Enter" && event.target.matches?.("em")) expand(event.target);
  if (event.key === "n") step(1);
  if (event.key === "p") step(focused < 0 ? 0 : -1);
  if (event.key === "f") stepFault(1);
  if (event.key === "F") stepFault(fault < 0 ? 0 : -1);
  if (event.key === "/") {
    event.preventDefault();
    search.focus();
  }
});
window.addEventListener("hashchange", readAddress);
readAddress();
