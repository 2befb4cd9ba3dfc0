// The page: what it holds, what is chosen, and what is shown of it.

const $ = id => document.getElementById(id);
const EXAMPLES = JSON.parse($("examples").textContent);
const FILES = ["netlist", "tests", "report", "proofs", "start"];
const TABS = Object.keys(PANELS);
const ALL_UP_TO = 60; // gates, above which only where the effect is is drawn at first
const MOST_DRAWN = 1000; // gates that are drawn at once
const MOST_ROWS = 5000;

const now = { tab: "Report", filter: "all", isFitted: false };

function say(text, isRefused) {
  $("status").textContent = text;
  $("status").className = isRefused ? "refused" : "";
}

// ---- what is held and chosen

function load(files) {
  const circuit = readNetlist(files.netlist), start = readStart(circuit, files.start);
  const vectors = readTests(circuit, files.tests || ""), said = files.report ? readReport(files.report) : null;
  for (const name of FILES) now[name] = files[name] || "";
  Object.assign(now, { circuit, from: start, vectors, said, entries: readProofs(now.proofs), good: runMachine(circuit, vectors, null, start) });
  Object.assign(now, { at: 0, fault: null, site: null, faulty: null, step: null, stepAt: null, made: null, drawn: null, filter: "all", checked: "", told: {} });
  showTyped();
  now.asked = askValues(null);
  const gates = circuit.gates.length;
  $("lines").value = gates > ALL_UP_TO ? "effect" : "all";
  for (const value of ["all", "faint"]) $("lines").querySelector(`[value=${value}]`).disabled = gates > MOST_DRAWN;
  const first = said && (said.faults.find(it => it.verdict === "detected") || said.faults[0]);
  if (first) pick(first.number, true);
  show();
}

function pick(number, jumps) {
  const fault = now.said.byNumber.get(number);
  if (!fault) return;
  const site = readFault(now.circuit, fault.site, fault.stuck), faulty = runMachine(now.circuit, now.vectors, site, now.from);
  Object.assign(now, { fault, site, faulty, found: firstDetection(now.good, faulty), step: null, stepAt: null, made: null, drawn: null });
  now.strip = now.good.map((good, t) => effectOf(site, good, faulty[t]));
  delete now.told.faulty;
  now.asked = now.asked.then(() => askValues(fault));
  if (!jumps) return;
  now.at = fault.own.verdict === "detected" ? fault.own.vector - 1 : 0;
  if (now.tab === "Report" && fault.own.verdict !== "detected" && now.entries.has(fault.own.number)) now.tab = "Evidence";
}

// What the entry of the chosen fault's class says, worked out once.
function evidence() {
  const { own } = now.fault;
  now.made ||= explain(now.circuit, readFault(now.circuit, own.site, own.stuck), now.entries.get(own.number), now.from);
  return now.made;
}

function pickStep(at) {
  const chosen = evidence().steps[at];
  if (!chosen || !chosen.sets) return;
  Object.assign(now, { step: chosen, stepAt: at });
  show();
}

function pickLine(net) {
  if (!now.said) return;
  now.filter = "line " + net.name;
  now.tab = "Report";
  panel();
}

function go(t) {
  if (!now.vectors.length) return;
  Object.assign(now, { at: Math.max(0, Math.min(now.vectors.length - 1, t)), step: null, stepAt: null });
  show();
}

// ---- which lines are drawn

// Where the effect is in some of these frames: lines that differ, and gates and flip-flops to which it comes.
function effectIn(from, count) {
  const kept = new Set([now.site.net]);
  for (let t = from; t < Math.min(from + count, now.good.length); t++) {
    const good = now.good[t], faulty = now.faulty[t];
    for (const net of now.circuit.order)
      if (good.seen[net.id] !== faulty.seen[net.id] || net.args.some((_, pin) => differsAtPin(net, pin, good, faulty))) kept.add(net);
  }
  return kept;
}

// The nets that are drawn, with what their gates read; null for all.
function drawnNets(from, count) {
  const isLarge = now.circuit.gates.length > MOST_DRAWN, wanted = $("lines").value;
  if (!now.fault) return isLarge ? new Set() : null;
  if (!isLarge && (wanted === "all" || wanted === "faint" || now.step)) return null;
  const kept = wanted === "reach" || now.step ? coneOf(now.site) : effectIn(from, count);
  const nets = [...kept].slice(0, MOST_DRAWN);
  return new Set([...nets, ...nets.flatMap(net => net.args)]);
}

// As many frames up to the vector as are asked for, one below the other, or one over the sets of a step of evidence.
function draw() {
  const box = $("schematic"), { circuit, step } = now, isMore = !step && now.vectors.length > 0;
  const count = isMore ? Math.min(Number($("frames").value), now.at + 1) : 1, from = isMore ? now.at + 1 - count : now.at;
  const kept = drawnNets(from, count);
  const key = kept ? [...kept].map(net => net.id).sort((a, b) => a - b).join() : "all";
  if (!now.drawn || now.drawn.key !== key) now.drawn = Object.assign(layOut(circuit, kept), { key });
  const plan = now.drawn;
  // fitted to the width where that stays readable, or, where it is asked for, to the whole
  const across = (box.clientWidth - 6) / plan.width, down = (box.clientHeight - 6) / plan.height / count;
  const zoom = now.isFitted ? Math.min(1.7, across, down) : Math.min(1.7, Math.max(0.75, Math.min(across, Math.max(down, 0.75))));
  const svg = shape("svg", { width: plan.width * zoom, height: plan.height * count * zoom, viewBox: `0 0 ${plan.width} ${plan.height * count}`, role: "img", "aria-label": `schematic of ${plan.nodes.filter(node => node.kind === "gate").length} gates` });
  for (let k = 0; k < count; k++) svg.append(drawFrame(circuit, plan, frameView(from + k, k * plan.height)));
  box.replaceChildren(svg);
}

function frameView(t, top) {
  const good = now.good[t], faulty = now.fault ? now.faulty[t] : undefined, sets = now.step && now.step.sets;
  const clear = !sets && good && now.fault && $("lines").value === "faint" ? effectIn(t, 1) : null;
  return {
    values: sets ? setsOf(sets) : good ? valuesOf(good, faulty) : NO_VALUES,
    site: now.step ? now.step.site : now.site, top, picked: pickLine,
    title: sets ? "one frame" : good ? `vector ${t + 1}` : "",
    faint: net => (clear && !clear.has(net) ? " faint" : ""),
    stops: net => Boolean(!sets && good && faulty && stopsAt(net, good, faulty)),
  };
}

const LEGEND = [["--zero", 2, "0"], ["--one", 3, "1"], ["--unknown", 2, "X, unknown", "dashed"], ["--opposite", 3, "opposite, good/faulty"], ["--maybe", 3, "X against a known value"], ["--stops", 3, "gate at which the effect stops"]];
const SET_LEGEND = [["--equal", 2, "equal pairs alone"], ["--maybe", 3, "may differ"], ["--opposite", 3, "differs for certain"]];

function legend() {
  const rows = now.step ? SET_LEGEND : LEGEND;
  $("legend").replaceChildren(...rows.map(([colour, width, words, style = "solid"]) =>
    element("span", {}, element("i", { style: `border-top:${width}px ${style} var(${colour})` }), words)));
}

// ---- words, the strip, the tabs

function story() {
  const box = $("story"), { circuit, fault, site, step } = now;
  box.replaceChildren();
  const p = (text, kind = "") => box.append(element("p", { class: kind }, text));
  if (step) {
    p(`Evidence of fault ${fault.own.number}, ${fault.own.site} s-a-${fault.own.stuck}: ${step.given ? `where ${step.given}: ` : ""}${step.words}.`);
    return p("At each line stand the pairs (good, faulty) that it may carry; the tab Lines has them all. A vector button goes back to the simulation.", "note");
  }
  if (!fault) return p("Choose a line of the report to see the faulty machine beside the good one.");
  const { own } = fault;
  p(`Fault ${fault.number}, ${fault.site} s-a-${fault.stuck}${fault.as ? `, equivalent to fault ${fault.as}` : ""}: ${own.verdict === "detected" ? `detected first by vector ${own.vector} at ${own.output}` : own.verdict}.`);
  const computed = now.found ? `${now.found.vector + 1} ${circuit.outputs[now.found.output].name}` : "";
  if (computed !== (own.verdict === "detected" ? `${own.vector} ${own.output}` : "")) p(`This page's own simulation says ${computed ? `detected ${computed}` : "not detected"}: please report that.`, "differs");
  const told = Object.values(now.told);
  if (told.includes(false)) p("The program says other values of lines than this page's own simulation: please report that.", "differs");
  else if (told.length === 2) p("The values of lines are what the program says.", "note");
  if (!now.found && own.verdict !== "detected") p(causeText(ownCause()), "note");
  const good = now.good[now.at], faulty = now.faulty[now.at];
  if (!good) return;
  const { items, detected } = frameItems(circuit, site, good, faulty);
  box.append(element("ul", {}, ...items.map(text => element("li", {}, text))));
  if (detected.length) p(`Detected here: ${detected.map(([net, g, f]) => `${net.name} is ${g} in the good machine and ${f} in the faulty one`).join("; ")}.`, "detected");
  else if (effectOf(site, good, faulty) === 0) p("Nothing differs in this frame.", "note");
}

// Why the vectors don't detect the class of the chosen fault: that of its representative, for members are excited apart.
function ownCause() {
  const { own } = now.fault, site = readFault(now.circuit, own.site, own.stuck);
  return causeOf(now.circuit, site, now.good, own === now.fault ? now.faulty : runMachine(now.circuit, now.vectors, site, now.from));
}

const STRIP_COLOURS = ["#e9ebee", "#f3c67a", "#e58e8e", "#c1121f"];
const STRIP_WORDS = ["nothing differs", "some X against a known value", "some line is opposite", "an output is opposite"];

function strip() {
  const canvas = $("strip"), count = now.vectors.length;
  canvas.width = canvas.clientWidth;
  canvas.setAttribute("aria-valuemin", count ? 1 : 0);
  canvas.setAttribute("aria-valuemax", count);
  canvas.setAttribute("aria-valuenow", count ? now.at + 1 : 0);
  if (!count) return;
  canvas.setAttribute("aria-valuetext", `vector ${now.at + 1}` + (now.fault ? `, ${STRIP_WORDS[now.strip[now.at]]}` : ""));
  const g = canvas.getContext("2d"), wide = canvas.width / count;
  for (let t = 0; t < count; t++) {
    const far = now.fault ? now.strip[t] : 0, high = 7 + 4 * far; // higher where it comes farther, for it isn't told by colour alone
    g.fillStyle = STRIP_COLOURS[far];
    g.fillRect(t * wide, 20 - high, Math.max(wide - (wide > 4 ? 1 : 0), 0.6), high);
  }
  g.strokeStyle = "#000";
  g.lineWidth = 2;
  g.strokeRect(now.at * wide, 1, Math.max(wide, 4), 20);
}

function panel() {
  $("tabs").replaceChildren(...TABS.map(name => element("button", {
    role: "tab", "aria-selected": String(name === now.tab), "aria-controls": "panel", tabindex: name === now.tab ? 0 : -1,
    onclick: () => { now.tab = name; panel(); }, onkeydown: event => moveTab(event, name),
  }, name)));
  $("panel").setAttribute("aria-label", now.tab);
  $("panel").replaceChildren(...PANELS[now.tab]().filter(it => it !== null));
  const row = $("panel").querySelector("tr.now");
  if (row) row.scrollIntoView({ block: "nearest" });
}

function moveTab(event, name) {
  const move = { ArrowRight: 1, ArrowLeft: -1 }[event.key];
  if (!move) return;
  event.preventDefault();
  event.stopPropagation();
  now.tab = TABS[(TABS.indexOf(name) + move + TABS.length) % TABS.length];
  panel();
  $("tabs").querySelector("[aria-selected=true]").focus();
}

function show() {
  const count = now.vectors.length;
  $("where").textContent = count ? `vector ${now.at + 1} of ${count}: ${now.vectors[now.at].join("") || "(no inputs)"}` : "no vectors";
  $("where").title = $("where").textContent;
  $("todetect").disabled = !(now.fault && now.fault.own.vector);
  legend();
  draw();
  story();
  strip();
  panel();
}

// ---- files that are opened

// Which of the files a text is, by its first line and its name.
function kindOfFile(name, text) {
  const first = text.slice(0, 100000).split("\n").map(line => line.trim()).find(line => line && !line.startsWith("#")) || "";
  if (/^circuit inputs /.test(first)) return "report";
  if (/^proofs [123]$/.test(first)) return "proofs";
  if (/[(=]/.test(first)) return "netlist";
  return /start/i.test(name) || /[xX]/.test(first) ? "start" : "tests";
}

async function openFiles(files) {
  const held = {};
  for (const file of files) {
    const text = await file.text();
    held[kindOfFile(file.name, text)] = text;
  }
  try {
    load(held.netlist ? held : { ...Object.fromEntries(FILES.map(name => [name, now[name]])), ...held });
    $("example").selectedIndex = -1;
    say([...files].map(file => file.name).join(", "));
  } catch (error) { say(error.message, true); }
}

function loadExample(at) {
  try { load(EXAMPLES[at]); say(""); } catch (error) { say(error.message, true); }
}

// ---- what is pressed

const detection = () => { if (now.fault && now.fault.own.vector) go(now.fault.own.vector - 1); };
const KEYS = { ArrowRight: () => go(now.at + 1), ArrowLeft: () => go(now.at - 1), Home: () => go(0), End: () => go(Infinity), d: detection };

$("first").onclick = KEYS.Home;
$("back").onclick = KEYS.ArrowLeft;
$("on").onclick = KEYS.ArrowRight;
$("end").onclick = KEYS.End;
$("todetect").onclick = detection;
$("frames").onchange = draw;
$("lines").onchange = draw;
$("fit").onclick = () => { now.isFitted = !now.isFitted; $("fit").setAttribute("aria-pressed", String(now.isFitted)); draw(); };
$("strip").onclick = event => go(Math.floor(event.offsetX / $("strip").clientWidth * now.vectors.length));
$("open").onchange = () => openFiles($("open").files);
$("example").onchange = () => loadExample($("example").value);
document.onkeydown = event => {
  const isTyping = /INPUT|TEXTAREA|SELECT/.test(event.target.tagName), isPlain = !event.ctrlKey && !event.altKey && !event.metaKey;
  const act = !isTyping && isPlain && KEYS[event.key];
  if (!act || (event.target.id === "schematic" && event.key !== "d")) return;
  event.preventDefault();
  act();
};
onresize = () => { draw(); strip(); };
$("example").replaceChildren(...EXAMPLES.map((it, at) => element("option", { value: at }, it.name)));

// a link may name what to show: #example=2&fault=49&vector=2&tab=Evidence&step=3
function follow(asked) {
  const number = key => Number(asked.get(key));
  const at = asked.has("example") && EXAMPLES[number("example")] ? number("example") : 0;
  $("example").value = at;
  loadExample(at);
  if (!now.circuit) return;
  if (asked.has("fault") && now.said) pick(number("fault"), true);
  if (asked.has("vector")) now.at = Math.max(0, Math.min(now.vectors.length - 1, number("vector") - 1));
  if (TABS.includes(asked.get("tab"))) now.tab = asked.get("tab");
  for (const id of ["lines", "frames"]) if (asked.has(id)) $(id).value = asked.get(id);
  if (asked.has("step") && now.fault && now.entries.has(now.fault.own.number)) pickStep(number("step") - 1);
  show();
}

onhashchange = () => follow(new URLSearchParams(location.hash.slice(1)));
if (EXAMPLES.length) onhashchange();
