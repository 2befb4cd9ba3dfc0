// The tabs: the report, the lines of the frame, the evidence of a verdict, coverage, and the files.

function element(tag, attributes = {}, ...children) {
  const made = document.createElement(tag);
  for (const [key, value] of Object.entries(attributes)) if (key.startsWith("on")) made[key] = value; else made.setAttribute(key, value);
  made.append(...children.filter(child => child !== null));
  return made;
}

// A row that a click, Enter or the space bar chooses.
function pickRow(isNow, pickIt, ...cells) {
  const keys = event => { if (event.key === "Enter" || event.key === " ") { event.preventDefault(); pickIt(); } };
  const row = element("tr", { class: "pick" + (isNow ? " now" : ""), tabindex: 0, onclick: pickIt, onkeydown: keys }, ...cells);
  if (isNow) row.setAttribute("aria-current", "true");
  return row;
}

const cell = (text, kind = "") => element("td", kind ? { class: kind } : {}, text);
const tableOf = (heads, rows) =>
  element("table", {}, element("thead", {}, element("tr", {}, ...heads.map(head => element("th", { scope: "col" }, head)))), element("tbody", {}, ...rows));
const percent = (part, whole) => `${(whole ? 100 * part / whole : 0).toFixed(1)} %`;

const PANELS = {
  Report() {
    if (!now.said) return [element("p", {}, "No report is here.")];
    const counts = new Map();
    for (const fault of now.said.faults) counts.set(fault.verdict, (counts.get(fault.verdict) || 0) + 1);
    const isLine = now.filter.startsWith("line ");
    const filters = ["all", ...counts.keys(), ...(isLine ? [now.filter] : [])].map(it => element("label", {},
      Object.assign(element("input", { type: "radio", name: "filter", onchange: () => { now.filter = it; panel(); } }), { checked: now.filter === it }),
      ` ${it}${counts.has(it) ? " " + counts.get(it) : ""}`));
    const net = isLine && now.circuit.nets.get(now.filter.slice(5));
    const isOf = fault => {
      const site = readFault(now.circuit, fault.site, fault.stuck);
      return site.net === net || (site.pin !== null && site.net.args[site.pin] === net);
    };
    const shown = now.said.faults.filter(it => now.filter === "all" || it.verdict === now.filter || (isLine && isOf(it)));
    const rows = shown.slice(0, MOST_ROWS).map(it => pickRow(now.fault === it, () => { pick(it.number, true); show(); },
      cell(String(it.number)), cell(`${it.site} s-a-${it.stuck}`), cell(it.verdict === "as" ? `as ${it.as}` : it.verdict, it.verdict + "-verdict"),
      cell(it.vector ? String(it.vector) : ""), cell(it.output || "")));
    return [element("p", {}, now.said.total), element("div", { class: "filters", role: "radiogroup", "aria-label": "verdicts" }, ...filters),
      tableOf(["", "Fault", "Verdict", "Vector", "Output"], rows),
      shown.length > MOST_ROWS ? element("p", { class: "note" }, `${shown.length - MOST_ROWS} more: choose a verdict, or click a line of the schematic.`) : null];
  },

  Lines() {
    const { circuit, step } = now, good = now.good[now.at], faulty = now.fault ? now.faulty[now.at] : undefined;
    const nets = [...circuit.inputs, ...circuit.flops, ...circuit.sorted].filter((_, at) => at < MOST_ROWS);
    const what = net => (net.kind === "INPUT" ? "input" : net.kind === "DFF" ? "flip-flop" : `${net.kind}(${net.args.map(arg => arg.name).join(", ")})`);
    if (step && step.sets) {
      const rows = nets.map(net => element("tr", {}, cell(net.name), cell(what(net), "note"), cell(showSet(step.sets.seen[net.id]))));
      rows.push(...circuit.flops.map((net, j) => element("tr", {}, cell(net.name + " next"), cell(`takes ${net.args[0].name}`, "note"), cell(showSet(step.sets.next[j])))));
      return [element("p", {}, `The pairs (good, faulty) that lines may carry: ${step.token}.`), tableOf(["Line", "Computed as", "Pairs"], rows)];
    }
    if (!good) return [element("p", {}, "There is no vector.")];
    const row = (name, words, g, f) => element("tr", {}, cell(name), cell(words, "note"), cell(SHOWN[g]),
      cell(f === undefined ? "" : SHOWN[f], f === undefined || g === f ? "" : opposite(g, f) ? "diff" : "may"));
    const rows = nets.map(net => row(net.name, what(net), good.seen[net.id], faulty && faulty.seen[net.id]));
    rows.push(...circuit.flops.map((net, j) => row(net.name + " next", `takes ${net.args[0].name}`, good.next[j], faulty && faulty.next[j])));
    return [tableOf(["Line", "Computed as", "Good", "Faulty"], rows)];
  },

  Evidence() {
    const own = now.fault && now.fault.own;
    if (!own) return [element("p", {}, "Choose a fault.")];
    const name = `Fault ${own.number}, ${own.site} s-a-${own.stuck},`;
    if (own.verdict === "detected") return [element("p", {}, `${name} is detected: the evidence is the tests themselves. Whoever doubts it simulates the first ${own.vector} vectors, as this page does.`)];
    const entry = now.entries.get(own.number);
    if (!entry) return [element("p", {}, `${name} is ${own.verdict}: there is no entry.`)];
    const made = evidence();
    const steps = made.steps.map((it, at) => {
      const cells = [element("td", { class: "token", style: `padding-left:${7 + 10 * Math.min(it.depth, 12)}px` }, it.token.length > 60 ? it.token.slice(0, 59) + "…" : it.token),
        cell(it.given, "where"), cell(it.words, "said"), element("td", { "aria-label": it.holds === undefined ? "" : it.holds ? "borne out" : "not borne out" }, it.holds === undefined ? "" : it.holds ? "✓" : "✗")];
      return it.sets ? pickRow(now.stepAt === at, () => pickStep(at), ...cells) : element("tr", {}, ...cells);
    });
    const judged = now.checked ? `check says: ${now.checked}.` : "Not checked here: ht check decides.";
    return [element("p", { class: "note" }, `${judged} A tick says that this page's own sets bear a row out.`), element("h3", {}, made.title),
      element("p", { class: "note" }, `Entry of fault ${own.number}, ${own.site} s-a-${own.stuck}` + (now.fault.as ? `, to whose class fault ${now.fault.number} belongs` : "") + "."),
      ...made.words.map(words => element("p", {}, words)), element("p", { class: "note" }, "Choose a row to see at each line the pairs that it may carry."),
      tableOf(["Proofs", "Where", "What it says", ""], steps),
      element("details", {}, element("summary", {}, "The entry as it stands"), element("pre", {}, ["entry " + entry.number + " " + entry.head, ...entry.lines].join("\n")))];
  },

  Coverage() {
    if (!now.said) return [element("p", {}, "No report is here.")];
    const own = now.said.faults.filter(it => it.verdict !== "as"), counts = new Map();
    for (const it of own) counts.set(it.verdict, (counts.get(it.verdict) || 0) + 1);
    const rows = [...counts].map(([verdict, count]) => element("tr", {}, cell(verdict, verdict + "-verdict"), cell(String(count)), cell(percent(count, own.length))));
    const here = own.filter(it => it.vector === now.at + 1);
    return [element("p", {}, `${own.length} classes of equivalent faults; the curve is the part that the vectors so far detect.`), coverageCurve(own),
      tableOf(["Verdict", "Classes", "Part"], rows), element("p", {}, `Vector ${now.at + 1} detects ${here.length} classes first` + (here.length ? ":" : ".")),
      element("p", {}, ...here.map(it => element("button", { onclick: () => { pick(it.number, true); show(); } }, `${it.site} s-a-${it.stuck}`)))];
  },

  Files() {
    const one = name => element("details", name === "netlist" ? { open: "" } : {}, element("summary", {}, `${name}, ${now[name].length} bytes `,
      element("a", { href: URL.createObjectURL(new Blob([now[name]])), download: name }, "save")),
      element("pre", {}, now[name].length > 20000 ? now[name].slice(0, 20000) + "\n…" : now[name]));
    return FILES.filter(name => now[name]).map(one);
  },
};

// The part of the classes that the vectors so far detect; a click goes to a vector.
function coverageCurve(own) {
  const at = own.filter(it => it.vector).map(it => it.vector).sort((a, b) => a - b), last = Math.max(1, now.vectors.length);
  const wide = 380, high = 220, left = 40, bottom = 24, across = wide - left - 8, up = high - bottom - 8;
  const x = t => left + across * t / last, y = count => 8 + up * (1 - (own.length ? count / own.length : 0));
  let path = `M${x(0)} ${y(0)}`;
  at.forEach((t, i) => { path += `H${x(t)}V${y(i + 1)}`; });
  const svg = shape("svg", { width: wide, height: high, role: "img", "aria-label": `${at.length} of ${own.length} classes are detected by ${now.vectors.length} vectors`, onclick: event => go(Math.round((event.clientX - svg.getBoundingClientRect().left - left) / across * last) - 1) });
  for (const part of [0, 0.25, 0.5, 0.75, 1])
    svg.append(shape("path", { d: `M${left} ${y(part * own.length)}H${wide - 8}`, stroke: "#e3e5e8" }), shape("text", { x: left - 5, y: y(part * own.length) + 4, "text-anchor": "end" }, `${100 * part}%`));
  svg.append(shape("path", { d: path + `H${x(last)}`, fill: "none", stroke: "var(--ok)", "stroke-width": 2 }),
    shape("path", { d: `M${x(now.at + 1)} 8V${high - bottom}`, stroke: "var(--opposite)", "stroke-dasharray": "3 3" }),
    shape("text", { x: left, y: high - 6 }, "0"), shape("text", { x: wide - 8, y: high - 6, "text-anchor": "end" }, `${last} vectors`));
  return svg;
}
