// The tab Run: the program's commands over the texts that the page holds.

const MODULE = document.getElementById("module").textContent.trim();
const engine = MODULE && runsModules() ? new Engine(MODULE) : null;
const WHY_NOT = MODULE ? "This browser has no WebAssembly memory of 64 bits: it shows files and can't run the program." : "This page was made without the program: it shows the files that it holds.";
const AT_ONCE = 300; // classes up to which the page asks for one run of gen
const BATCH = 32; // classes to a run of gen above that
const MOST_VALUES = 4000000; // lines times vectors up to which the program is asked for the values

// What the user types. The fields are made once, so that what is typed stays when the tab is drawn anew.
const typed = {
  netlist: element("textarea", { rows: 12, spellcheck: "false", "aria-label": "netlist" }),
  vectors: element("textarea", { rows: 5, spellcheck: "false", "aria-label": "vectors, one a line" }),
  start: element("input", { size: 12, spellcheck: "false", placeholder: "unknown" }),
  budget: element("input", { type: "number", min: 1, max: 100000, value: 20 }),
  search: element("select", {}, element("option", {}, "plain"), element("option", {}, "deep")),
  random: element("input", { type: "number", min: 0, max: 100000, value: 0 }),
  weighted: element("input", { type: "number", min: 0, max: 100000, value: 0 }),
  seed: element("input", { size: 8, value: 0 }),
};

function showTyped() {
  typed.netlist.value = now.netlist;
  typed.vectors.value = now.tests;
  typed.start.value = now.start.trim();
}

// ---- words and files

const startWords = () => (typed.start.value.trim() ? ["--start", "start"] : []);
const given = files => ({ netlist: typed.netlist.value, ...(startWords().length ? { start: typed.start.value.trim() + "\n" } : {}), ...files });
const searchWords = () => ["--budget", typed.budget.value, "--search", typed.search.value];

// Runs the program; an Error with its line where it refuses, after the line of the netlist that it names was chosen.
async function run(words, files, made, statuses = [0]) {
  const answer = await engine.ask(words, given(files), made);
  if (statuses.includes(answer.status)) return answer;
  const line = /^netlist: line (\d+): /.exec(answer.err);
  if (line) chooseLine(Number(line[1]));
  throw new Error(answer.err.trim() || `status ${answer.status}`);
}

function chooseLine(number) {
  const lines = typed.netlist.value.split("\n"), from = lines.slice(0, number - 1).join("\n").length + (number > 1 ? 1 : 0);
  typed.netlist.focus();
  typed.netlist.setSelectionRange(from, from + (lines[number - 1] || "").length);
}

// ---- the values of lines

// Asks the program what each line of a machine carries, the good one (null) or that of a fault of the report. Until it has
// said so, the page shows its own simulation.
async function askValues(fault) {
  const { netlist, tests, start, circuit, vectors } = now;
  if (!engine || !vectors.length || vectors.length * circuit.order.length > MOST_VALUES) return;
  const words = ["respond", "netlist", "tests", "lines", "--lines", ...(fault ? ["--fault", String(fault.number)] : []), ...(start ? ["--start", "start"] : [])];
  const answer = await engine.ask(words, { netlist, tests, ...(start ? { start } : {}) }, ["lines"]).catch(() => null);
  if (!answer || answer.status !== 0 || now.circuit !== circuit || (fault && now.fault !== fault)) return;
  takeValues(fault, framesOfText(circuit, answer.made.lines, fault && now.site, now.from));
  show();
}

// The program's values take the place of the page's own, from which none may differ.
function takeValues(fault, told) {
  const own = fault ? now.faulty : now.good;
  const isSame = told.length === own.length && told.every((frame, t) => frame.seen.every((value, id) => value === own[t].seen[id]));
  now.told = { ...now.told, [fault ? "faulty" : "good"]: isSame };
  if (!fault) now.good = told;
  else Object.assign(now, { faulty: told, found: firstDetection(now.good, told) });
  if (now.fault) now.strip = now.good.map((good, t) => effectOf(now.site, good, now.faulty[t]));
}

// ---- gen

const GENERATED = ["tests", "report", "proofs"];

async function generateAtOnce() {
  const words = ["gen", "netlist", ...GENERATED, ...searchWords(), "--random", typed.random.value, "--weighted", typed.weighted.value, "--seed", typed.seed.value, ...startWords()];
  const { out, made } = await run(words, {}, GENERATED);
  return { out, files: made };
}

// The entries of proofs, each with its lines.
function entriesOf(proofs) {
  return proofs.split(/^(?=entry )/m).slice(1).map(text => ({ number: Number(/^entry (\d+)/.exec(text)[1]), text: text.replace(/^end\n$/m, "") }));
}

const proofsOf = entries =>
  `proofs ${typed.search.value === "deep" ? 3 : 2}\n` + [...entries].sort((a, b) => a.number - b.number).map(it => it.text).join("") + "end\n";

// gen for some faults after the tests so far, and the report that all files so far justify.
async function generateBatch(tests, entries, faults, first) {
  const files = { first: tests, faults: faults.map(number => number + "\n").join("") };
  const words = ["gen", "netlist", ...GENERATED, ...searchWords(), ...first, "--first", "first", "--faults", "faults", ...startWords()];
  const { made } = await run(words, files, GENERATED);
  entries.push(...entriesOf(made.proofs).filter(it => !entries.some(other => other.number === it.number)));
  const proofs = proofsOf(entries);
  const judged = await run(["report", "netlist", "tests", "proofs", "report", "--budget", typed.budget.value, ...startWords()], { tests: made.tests, proofs }, ["report"]);
  return { out: judged.out, files: { tests: made.tests, proofs, report: judged.made.report } };
}

// The classes that await a verdict: those that the report says are undetected, and that have no entry.
const awaiting = (report, entries) => readReport(report).faults
  .filter(it => it.verdict === "undetected" && !entries.some(other => other.number === it.number)).map(it => it.number);

// gen in batches, each shown when it is judged; what is there when it is stopped stays.
async function generateInBatches() {
  const entries = [], first = ["--random", typed.random.value, "--weighted", typed.weighted.value, "--seed", typed.seed.value];
  let made = await generateBatch("", entries, [], first), left = awaiting(made.files.report, entries);
  const count = left.length;
  for (let before = Infinity; left.length && left.length < before; ) {
    before = left.length;
    made = await generateBatch(made.files.tests, entries, left.slice(0, BATCH), []);
    left = awaiting(made.files.report, entries);
    took(made.files);
    say(`${count - left.length} of ${count} classes`);
  }
  return made;
}

// ---- what the buttons do

// Shows what was made in the place of what was there.
function took(files) {
  const { tab } = now;
  load({ netlist: typed.netlist.value, start: given({}).start || "", tests: "", report: "", proofs: "", ...files });
  now.tab = tab;
  $("example").selectedIndex = -1;
  show();
}

const COMMANDS = {
  async "Generate tests"() {
    const { out } = await run(["sim", "netlist", "tests", "report", ...startWords()], { tests: "" }, ["report"]);
    const made = Number(/ (\d+) /.exec(out)[1]) <= AT_ONCE ? await generateAtOnce() : await generateInBatches();
    took(made.files);
    return made.out;
  },

  async "Check the files"() {
    if (!now.report) throw new Error("there is no report: generate tests first");
    const { out, err } = await run(["check", "netlist", "tests", "report", "proofs", ...(now.start ? ["--start", "start"] : [])],
      { netlist: now.netlist, tests: now.tests, report: now.report, proofs: now.proofs, ...(now.start ? { start: now.start } : {}) }, [], [0, 1]);
    now.checked = (out || err).trim();
    show();
    return `check: ${now.checked}`;
  },

  async "Simulate my vectors"() {
    const tests = typed.vectors.value.replace(/\n?$/, typed.vectors.value ? "\n" : "");
    const { out, made } = await run(["sim", "netlist", "tests", "report", ...startWords()], { tests }, ["report"]);
    took({ tests, report: made.report });
    return out;
  },

  async "Shorter"() {
    if (!now.report) throw new Error("there are no tests: generate them, or simulate vectors, first");
    const shorter = await run(["compact", "netlist", "tests", "shorter"], { netlist: now.netlist, tests: now.tests }, ["shorter"]);
    const tests = shorter.made.shorter, { made } = await run(["sim", "netlist", "tests", "report"], { netlist: now.netlist, tests }, ["report"]);
    took({ netlist: now.netlist, tests, report: made.report, start: "" });
    return shorter.out;
  },

  async "Find a start"() {
    const { out, made } = await run(["sync", "netlist", "tests", "record", "--budget", typed.budget.value], {}, ["tests", "record"]);
    typed.vectors.value = made.tests || "";
    return out;
  },
};

async function press(name) {
  say("at work");
  setAtWork(true);
  try {
    say((await COMMANDS[name]()).trim());
  } catch (error) {
    say(error.message, true);
  }
  setAtWork(false);
}

const buttons = Object.keys(COMMANDS).map(name => element("button", { onclick: () => press(name) }, name));
const stopButton = element("button", { disabled: "", onclick: () => engine.end("stopped") }, "Stop");

function setAtWork(isAtWork) {
  for (const button of buttons) button.disabled = isAtWork || !engine;
  stopButton.disabled = !isAtWork;
}

PANELS.Run = () => {
  const labelled = (words, field) => element("label", {}, words + " ", field);
  return [
    element("p", { class: "note" }, engine ? "The program in this page is compiled from the proved one. Its answers are checked by tests, and the release's program is the one to rest on." : WHY_NOT),
    element("div", { class: "bar" }, ...buttons, stopButton),
    element("div", { class: "bar" }, labelled("budget", typed.budget), labelled("search", typed.search), labelled("random", typed.random), labelled("weighted", typed.weighted), labelled("seed", typed.seed), labelled("start", typed.start)),
    element("h3", {}, "Netlist"), typed.netlist, element("h3", {}, "My vectors, one a line"), typed.vectors,
  ];
};

setAtWork(false);
