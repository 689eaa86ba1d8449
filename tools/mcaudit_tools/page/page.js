"use strict";
(() => {
const at = id => document.getElementById(id);
const data = JSON.parse(at("data").textContent);
const drawing = at("drawing"), view = at("view");
const rows = [...document.querySelectorAll("#rows tbody tr")];
const text = flow => `(${flow.source},${flow.group})`;
let chosen = 0, marked = [], signs = [], scale = 1;
let shifts = null; // by LAN and router, how far it has moved, where only a part of the domain is shown

// Makes an element; what it has inside is text or elements, never markup.
function make(name, words, ...children) {
  const made = document.createElement(name);
  for (const [key, value] of Object.entries(words)) {
    if (typeof value === "function") made.addEventListener(key, value);
    else if (value !== undefined) made.setAttribute(key, value);
  }
  made.append(...children);
  return made;
}

// ---- what is marked in the graph

function mark(id, ...names) {
  const element = drawing && at(id);
  if (!element) return;
  element.classList.add(...names);
  marked.push([element, names]);
}

// Marks a vif and the line to its LAN, along which a copy comes in to its router or goes out.
function markPort(number, kind, isOut) {
  mark("p" + number, kind);
  const isLeft = data.ports[number][3];
  mark("e" + number, kind, isLeft === isOut ? "backward" : "forward");
}

function clearMarks() {
  for (const [element, names] of marked) element.classList.remove(...names);
  marked = [];
  signs = [];
}

const numbersOf = (element, ...names) => names.map(name => Number(element.getAttribute(name)));
const boxOf = node => numbersOf(node.querySelector("rect"), "x", "y", "width", "height");
const shiftOf = id => shifts ? shifts.get(id) : [0, 0];

// Where a sign stands, and how it is aligned: over or under a LAN or router, or at a vif beside its router. Nowhere at
// what isn't shown.
function placeOf(id, isOver) {
  const isPort = id[0] === "p", [router, , lan, isLeft] = isPort ? data.ports[id.slice(1)] : [];
  const node = isPort ? "r" + router : id, by = shiftOf(node);
  if (!by) return null;
  const [left, top, width, height] = boxOf(at(node)), x = left + by[0], y = top + by[1];
  if (!isPort) return [x + width / 2, isOver ? y - 4 : y + height + 13, "middle"];
  const line = numbersOf(at(id).querySelector("text"), "y")[0] + by[1];
  if (lan === null) return [x + width + 12, line, "start"];
  const above = boxOf(at("l" + lan))[1] + (shiftOf("l" + lan) || by)[1];
  const beside = above + 15 < line - 12 ? line + 10 : line - 10;
  return isLeft ? [x - 12, beside, "end"] : [x + width + 12, beside, "start"];
}

// Puts signs in words at elements; further ones of an element stand under its first.
function putSigns() {
  const counts = new Map();
  at("signs").replaceChildren();
  for (const [id, kind, words, isOver] of signs) {
    const place = placeOf(id, isOver);
    if (!place) continue;
    const made = document.createElementNS(drawing.namespaceURI, "text"), count = isOver ? 0 : counts.get(id) || 0;
    const attributes = { x: place[0], y: place[1] + 14 * count, "text-anchor": place[2], class: kind };
    for (const [name, value] of Object.entries(attributes)) made.setAttribute(name, value);
    made.textContent = words;
    at("signs").append(made);
    if (!isOver) counts.set(id, count + 1);
  }
}

function sign(id, kind, words, isOver) {
  if (!drawing || !at(id) || !words || signs.some(it => it[0] === id && it[2] === words)) return;
  signs.push([id, kind, words, isOver]);
}

const SIGNS = { fault: "✗ ", mend: "✂ ", doubt: "? " };

// Marks what a line of an explanation tells of.
function markTold(marks) {
  for (const [id, kind, words] of marks) {
    if (id[0] === "p") mark("e" + id.slice(1), kind);
    mark(id, kind);
    sign(id, kind, words && (SIGNS[kind] || "") + words);
  }
}

// Sends by the vifs that the explanation marks, so that their arrows point the right way.
function pointPorts(lines, travel) {
  const out = new Set(travel.flatMap(step => step[5])), come = new Set(travel.map(step => step[0]));
  for (const [, marks] of lines) for (const [id] of marks) if (id[0] === "p") {
    const number = Number(id.slice(1)), isLeft = data.ports[number][3];
    if (out.has(number)) mark("e" + number, isLeft ? "backward" : "forward");
    else if (come.has(number)) mark("e" + number, isLeft ? "forward" : "backward");
  }
}

function light(marks, isOn) {
  for (const [id] of marks) for (const it of [id, "e" + id.slice(1)]) {
    const element = (it === id || id[0] === "p") && at(it);
    if (element) element.classList.toggle("lit", isOn);
  }
}

function markSource(flow) {
  mark("l" + flow.lan, "carries");
  sign("l" + flow.lan, "way", "source " + flow.source, true);
}

function markTree(flow) {
  markSource(flow);
  for (const [lan, , , port, start] of data.trees[flow.tree]) {
    mark("l" + lan, "carries");
    if (port === null) continue;
    markPort(port, "way", true);
    mark("r" + data.ports[port][0], "way");
    if (start !== null) markPort(start, "way", false);
  }
  for (const lan of flow.wanted) sign("l" + lan, "yes", "✓ wanted, gets it");
}

// Marks the first steps of a travel, and the last of them as the present one.
function markTravel(flow, steps, count) {
  const travel = steps.slice(1, 1 + count), why = data.reasons[flow.why];
  markSource(flow);
  for (const [port, , outcome, , , sent] of travel) {
    const [router, , lan] = data.ports[port];
    mark("l" + lan, "carries");
    if (outcome === 3) mark("e" + port, "ends");
    else markPort(port, "way", false);
    if (outcome === 0) mark("r" + router, "way");
    for (const it of sent) { markPort(it, "way", true); mark("l" + data.ports[it][2], "carries"); }
  }
  if (count < steps.length - 1) {
    const now = travel.at(-1);
    if (now) mark("r" + data.ports[now[0]][0], "now");
    return;
  }
  for (const [, marks] of why) markTold(marks);
  pointPorts(why, travel);
}

// ---- the graph's size, and how much of it is shown

const nodes = drawing ? [...drawing.querySelectorAll(".lan, .router")] : [];
const lines = drawing ? [...at("paths").children].map(line => [line, line.getAttribute("d")]) : [];
const wholeBox = drawing && drawing.getAttribute("viewBox");

// Returns how a place is moved to the left where all is left out that lies in none of these stretches.
function squeezing(stretches) {
  const kept = [];
  for (const [from, to] of stretches.sort((one, other) => one[0] - other[0])) {
    const last = kept.at(-1);
    if (last && from <= last[1]) last[1] = Math.max(last[1], to);
    else kept.push([from, to]);
  }
  return value => kept.reduce((sum, [from, to]) => sum + Math.max(0, Math.min(value, to) - from), 0);
}

// The LANs and routers of a part of the domain by columns, from the left, each with those of the part on a line to it.
function columnsOf(part) {
  const links = new Map(part.map(node => [node.id, []])), columns = new Map();
  for (const [router, , lan] of data.ports) if (links.has("r" + router) && links.has("l" + lan)) {
    links.get("r" + router).push("l" + lan);
    links.get("l" + lan).push("r" + router);
  }
  for (const node of part) {
    const [x, y, width, height] = boxOf(node), middle = Math.round(x + width / 2);
    columns.set(middle, [...(columns.get(middle) || []), { id: node.id, y, height, links: links.get(node.id) }]);
  }
  return [...columns].sort(([one], [other]) => one - other).map(([, column]) => column);
}

// Puts a column's LANs and routers between the top and this height, each as near to its wish as the others let it.
const ABOVE = 22, BELOW = 36; // room for signs
function putColumn(column, most, wish) {
  column.sort((one, other) => wish(one) - wish(other) || one.y - other.y);
  let place = 0;
  for (const it of column) {
    it.top = Math.max(place + ABOVE, wish(it) - it.height / 2);
    place = it.top + it.height + BELOW;
  }
  place = most;
  for (const it of [...column].reverse()) {
    it.top = Math.min(it.top, place - BELOW - it.height);
    place = it.top - ABOVE;
  }
}

// Puts the columns: the tallest one as close as it can be, and the others beside what they are linked with. Returns the
// height.
function putColumns(columns) {
  const heights = columns.map(column => column.reduce((sum, it) => sum + it.height + ABOVE + BELOW, 0));
  const most = Math.max(...heights), first = heights.indexOf(most), middles = new Map();
  const wish = ({ links }) => {
    const known = links.filter(id => middles.has(id)).map(id => middles.get(id));
    return known.length ? known.reduce((sum, it) => sum + it, 0) / known.length : 0;
  };
  const order = columns.map((_, number) => number);
  order.sort((one, other) => Math.abs(one - first) - Math.abs(other - first));
  for (const number of order) {
    putColumn(columns[number], most, wish);
    for (const it of columns[number]) middles.set(it.id, it.top + it.height / 2);
  }
  return most;
}

// Returns the way of a line between the places to which its ends have moved.
function drawnAnew(way, [fromX, fromY], [toX, toY]) {
  const numbers = way.match(/[-.0-9]+/g).map(Number);
  const [x, y, endX, endY] = [numbers[0] + fromX, numbers[1] + fromY, numbers.at(-2) + toX, numbers.at(-1) + toY];
  return `M${x} ${y}C${(x + endX) / 2} ${y} ${(x + endX) / 2} ${endY} ${endX} ${endY}`;
}

// Puts LANs, routers and lines where they stand: all in the whole domain, or those that have a shift.
function arrange(box) {
  for (const node of nodes) {
    const by = shiftOf(node.id);
    node.classList.toggle("aside", !by);
    if (by) node.setAttribute("transform", `translate(${by})`);
  }
  for (const [line, way] of lines) {
    const [router, , lan, isLeft] = data.ports[line.id.slice(1)], ends = [shiftOf("r" + router), shiftOf("l" + lan)];
    const isAside = !ends[0] || !ends[1];
    line.classList.toggle("aside", isAside);
    if (!isAside) line.setAttribute("d", shifts ? drawnAnew(way, ...(isLeft ? ends.reverse() : ends)) : way);
  }
  drawing.setAttribute("viewBox", box);
}

function showWhole() {
  if (!shifts) return;
  shifts = null;
  arrange(wholeBox);
}

// Shows what is marked alone, without the room that others take.
function showPart(part) {
  const moveX = squeezing(part.map(boxOf).map(([x, , width]) => [x - 70, x + width + 70]));
  const columns = columnsOf(part), height = putColumns(columns);
  const tops = new Map(columns.flat().map(it => [it.id, it.top]));
  shifts = new Map(part.map(node => {
    const [x, y] = boxOf(node);
    return [node.id, [moveX(x) - x, tops.get(node.id) - y]];
  }));
  arrange(`0 0 ${moveX(Infinity)} ${height}`);
}

function zoom(to) {
  const box = drawing.viewBox.baseVal;
  scale = Math.min(3, Math.max(0.05, to));
  drawing.setAttribute("width", box.width * scale);
  drawing.setAttribute("height", box.height * scale);
}

// How large what is shown can be, to be seen as a whole.
function fitting() {
  const box = drawing.viewBox.baseVal;
  return Math.min(1.5, (view.clientWidth - 2) / box.width, Math.max(300, innerHeight * 0.5) / box.height);
}

function zoomWhole() {
  showWhole();
  zoom(Math.max(0.2, fitting()));
}

// Shows what is marked as large as it can be read: alone, where in the whole domain it is too small.
function zoomMarked() {
  zoomWhole();
  const part = [...new Set(marked.map(([element]) => element.closest(".lan, .router")).filter(node => node))];
  if (scale >= 0.7 || !part.length) return;
  showPart(part);
  zoom(Math.max(0.7, fitting()));
  const fault = marked.find(([element, names]) => names.includes("fault") && element.closest(".lan, .router"));
  const aim = (fault ? fault[0] : part[0]).closest(".lan, .router"), [x, y, width, height] = boxOf(aim);
  const [byX, byY] = shifts.get(aim.id);
  view.scrollLeft = (x + byX + width / 2) * scale - view.clientWidth / 2;
  view.scrollTop = (y + byY + height / 2) * scale - view.clientHeight / 2;
}

// Shows what is marked, or the whole domain, with its signs.
function showGraph(size) {
  if (!drawing) return;
  size();
  putSigns();
}

// ---- a flow in words

const lineText = (flow, line) => line.split(data.mark).join(text(flow));
const count = (number, one, many) => `${number} ${number === 1 ? one : many}`;

function whyList(flow) {
  const lines = data.reasons[flow.why].slice(1).map(([line, marks]) => make("li", {
    tabindex: 0, class: marks.length ? marks[0][1] : "plain",
    mouseenter: () => light(marks, true), mouseleave: () => light(marks, false),
    focus: () => light(marks, true), blur: () => light(marks, false) }, lineText(flow, line)));
  return make("ol", { class: "why" }, ...lines);
}

function stepText([port, ttl, outcome, copies, strays, sent]) {
  const [router, device, lan] = data.ports[port];
  const begin = `${data.routers[router]}, ${device} of ${data.lans[lan]}, ttl ${ttl}: `;
  if (outcome !== 0) return begin + ["", "only an entry for every source, which isn't followed",
    "no entry: it ends here", "its entry takes from another interface: it ends here"][outcome];
  const onto = [], out = [];
  for (const [, name, on] of sent.map(it => data.ports[it]))
    if (on === null) out.push(name); else onto.push(`${data.lans[on]} by ${name}`);
  const sends = copies ? "sends " + count(copies, "copy", "copies") : strays ? "" : "sends no copy";
  const leaves = !strays ? "" : (copies ? ", and " : "") + count(strays, "copy leaves", "copies leave")
    + " the known domain";
  return begin + sends + (onto.length ? " onto " + onto.join(", ") : "")
    + leaves + (out.length ? " by " + out.join(", ") : "");
}

function travelWords(flow) {
  const steps = data.travels[flow.travel], last = steps.length - 1;
  if (last < 1) return [];
  const items = steps.slice(1).map((step, number) => make("li", {},
    make("button", { type: "button", click: () => show(number + 1) }, `${number + 1}. ${stepText(step)}`)));
  const said = make("output", {});
  const moves = [["first", () => 0], ["back", now => now - 1], ["next", now => now + 1], ["last", () => last]];
  let now = last;
  const buttons = moves.map(([name, to]) => make("button", { type: "button", click: () => show(to(now)) }, name));
  function show(number, isFirst) {
    now = Math.min(last, Math.max(0, number));
    clearMarks();
    markTravel(flow, steps, now);
    if (drawing) putSigns();
    items.forEach((item, place) => {
      item.classList.toggle("later", place >= now);
      if (place === now - 1) item.firstChild.setAttribute("aria-current", "step");
      else item.firstChild.removeAttribute("aria-current");
    });
    said.textContent = now ? `step ${now} of ${last}` : `sent onto ${data.lans[flow.lan]} with ttl ${flow.found_ttl}`;
    buttons.forEach((button, place) => { button.disabled = place < 2 ? now === 0 : now === last; });
    if (now && !isFirst) items[now - 1].scrollIntoView({ block: "nearest" });
  }
  show(last, true);
  const told = `${steps[0] - last} more steps are told by mcaudit audit --travel.`;
  const more = steps[0] > last ? [make("p", {}, told)] : [];
  return [make("h3", {}, `Travel of one packet sent with ttl ${flow.found_ttl}`),
    make("div", { class: "stepper" }, ...buttons, said), make("ol", { class: "steps" }, ...items), ...more];
}

function treeList(flow) {
  const wanted = new Set(flow.wanted), below = new Map();
  for (const entry of data.trees[flow.tree]) {
    const from = entry[4] === null ? null : data.ports[entry[4]][2];
    below.set(from, [...(below.get(from) || []), entry]);
  }
  function item([lan, , need, port, start]) {
    const by = port === null ? `, where ${flow.source} sends` : ` by ${data.routers[data.ports[port][0]]}, `
      + `${start === null ? "" : `from ${data.ports[start][1]} `}to ${data.ports[port][1]}`;
    const more = below.get(lan) || [];
    return make("li", {}, make("b", {}, data.lans[lan]), `${by}; reached with ttl ${need} or more`,
      ...(wanted.has(lan) ? [" ", make("span", { class: "yes" }, "✓ wanted")] : []),
      ...(more.length ? [make("ul", { class: "tree" }, ...more.map(item))] : []));
  }
  return make("ul", { class: "tree" }, ...(below.get(null) || []).map(item));
}

function findingWords(flow) {
  if (flow.kind) {
    const words = `${flow.state}: ${flow.kind} ${flow.place}`;
    return flow.state === "wrong" ? ["no", `✗ ${words}`, data.means[flow.kind]]
      : ["unwanted", `? ${words}`, data.means.unknown];
  }
  const copies = `at most ${count(flow.copies, "LAN carries", "LANs carry")} each packet`;
  if (!flow.wanted.length)
    return ["unwanted", `○ ${data.right}, and wanted by nobody`, `No report asks for it; ${copies}.`];
  const [kind, sign] = flow.state === "right" ? ["yes", "✓"] : ["unwanted", "?"];
  return [kind, `${sign} ${data.right}`, `Each LAN that wants it gets it once; ${copies}.`];
}

function showFlow(number) {
  const flow = data.flows[number];
  if (!flow) return;
  rows[chosen].classList.remove("chosen");
  rows[chosen].querySelector("a").removeAttribute("aria-current");
  chosen = number;
  rows[chosen].classList.add("chosen");
  rows[chosen].querySelector("a").setAttribute("aria-current", "true");
  showRows(Math.max(shown, found.indexOf(number) + 1));
  const list = at("list"), place = rows[chosen].offsetTop - list.offsetTop;
  if (place < list.scrollTop + 40 || place > list.scrollTop + list.clientHeight - 60) list.scrollTop = place - 80;
  at("title").textContent = `Flow ${flow.number}: ${flow.source} to ${flow.group}, ttl ${flow.ttl}`;
  const [kind, words, more] = findingWords(flow);
  at("finding").className = kind;
  at("finding").replaceChildren(words, make("span", {}, more));
  clearMarks();
  if (flow.kind) {
    at("explained").replaceChildren(make("h3", {}, "Why"), whyList(flow));
    at("explained").append(...travelWords(flow));
    if (data.travels[flow.travel].length < 2) markTravel(flow, data.travels[flow.travel], 0);
  } else {
    at("explained").replaceChildren(make("h3", {}, "The path of the flow"), treeList(flow));
    markTree(flow);
  }
  showGraph(zoomMarked);
}

// ---- the table

const reasonText = data.reasons.map(lines => lines.map(([line]) => line).join("\n").toLowerCase());
const PIECE = 300;
let rowText = null, found = rows.map((_, number) => number), shown = rows.length;

// Shows so many of the rows that were found: the browser lays out none of the others.
function showRows(most) {
  const before = new Set(found.slice(0, shown = Math.min(most, found.length)));
  rows.forEach((row, number) => { if (row.hidden === before.has(number)) row.hidden = !row.hidden; });
}

function showMoreRows() {
  const list = at("list");
  if (shown < found.length && list.scrollTop + 2 * list.clientHeight > list.scrollHeight) showRows(shown + PIECE);
}

function filterRows() {
  rowText = rowText || rows.map((row, number) =>
    [row.textContent, ...(data.flows[number].wanted || []).map(lan => data.lans[lan])].join(" ").toLowerCase());
  const words = at("search").value.toLowerCase().split(/\s+/).filter(word => word);
  const kind = document.querySelector("input[name=kind]:checked").value;
  found = rows.map((_, number) => number).filter(number => {
    const reason = reasonText[data.flows[number].why] || "";
    return (kind === "all" || rows[number].classList.contains(kind))
      && words.every(word => rowText[number].includes(word) || reason.includes(word));
  });
  showRows(PIECE);
  at("list").scrollTop = 0;
  const all = count(rows.length, "flow", "flows");
  at("count").textContent = found.length === rows.length ? all : `${found.length} of ${all}`;
}

// Moves from a flow's link to that of the next one that was found, or the one before.
function moveLink(event) {
  const step = { ArrowDown: 1, ArrowUp: -1 }[event.key], row = event.target.closest("tr");
  if (!step || !row) return;
  event.preventDefault();
  const place = found.indexOf(rows.indexOf(row)) + step;
  if (place >= shown) showRows(shown + PIECE);
  if (rows[found[place]]) rows[found[place]].querySelector("a").focus();
}

// Shows the flow of the address, or the first with a finding.
function showAddressed() {
  const named = /^#flow-(\d+)$/.exec(location.hash);
  let number = named ? data.flows.findIndex(flow => flow.number === Number(named[1])) : -1;
  if (number < 0) number = Math.max(0, data.flows.findIndex(flow => flow.kind));
  showFlow(number);
}

function printFaults() {
  showRows(Infinity);
  const told = found.filter(number => number !== chosen && data.flows[number].kind).map(number => data.flows[number]);
  at("printed").replaceChildren(...told.flatMap(flow => [
    make("h3", {}, `Flow ${flow.number}: ${flow.source} to ${flow.group}, ttl ${flow.ttl}: `
      + `${flow.state}: ${flow.kind} ${flow.place}`),
    make("ol", { class: "why" },
      ...data.reasons[flow.why].slice(1).map(([line]) => make("li", {}, lineText(flow, line))))]));
  if (told.length) at("printed").prepend(make("h2", {}, "What explains the other faults"));
}

at("search").addEventListener("input", filterRows);
document.querySelectorAll("input[name=kind]").forEach(it => it.addEventListener("change", filterRows));
document.querySelector("form").addEventListener("submit", event => event.preventDefault());
at("rows").addEventListener("keydown", moveLink);
at("list").addEventListener("scroll", showMoreRows);
at("rows").addEventListener("click", event => {
  const row = event.target.closest("tbody tr");
  if (row && !event.target.closest("a")) row.querySelector("a").click();
});
addEventListener("hashchange", showAddressed);
addEventListener("beforeprint", printFaults);
if (drawing) {
  at("closer").addEventListener("click", () => zoom(scale * 1.25));
  at("farther").addEventListener("click", () => zoom(scale / 1.25));
  at("fit").addEventListener("click", () => showGraph(zoomWhole));
  at("focus").addEventListener("click", () => showGraph(zoomMarked));
}
showRows(PIECE);
document.documentElement.dataset.ready = "yes";
showAddressed();
})();
