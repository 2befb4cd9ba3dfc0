// Tests, starts, reports and proofs, as docs/FORMATS.md has them.

// The lines of a text, each with LF or CR LF, the last one with or without.
function linesOf(text) {
  const lines = text.split("\n").map(line => line.replace(/\r$/, ""));
  if (lines[lines.length - 1] === "") lines.pop();
  return lines;
}

// The vectors of a text of tests; an Error with the line where it is malformed.
function readTests(circuit, text) {
  return linesOf(text).map((line, at) => {
    if (!/^[01]*$/.test(line) || line.length !== circuit.inputs.length) throw new Error(`tests: line ${at + 1}`);
    return [...line].map(Number);
  });
}

// What each flip-flop holds at the start, all-unknown where there is no text.
function readStart(circuit, text) {
  if (!text) return circuit.flops.map(() => X);
  const line = linesOf(text)[0] || "";
  if (!/^[01Xx]*$/.test(line) || line.length !== circuit.flops.length) throw new Error("start: line 1");
  return [...line].map(value => (value === "0" ? 0 : value === "1" ? 1 : X));
}

// The faults of a report, each with its verdict; `own` is that of its class's representative.
function readReport(text) {
  const lines = linesOf(text);
  const faults = lines.slice(1, -1).map((line, at) => {
    const found = /^(\d+) (\S+) s-a-([01]) (?:(detected) (\d+) (\S+)|as (\d+)|(undetected|untestable|undetectable|aborted))$/.exec(line);
    if (!found) throw new Error(`report: line ${at + 2}`);
    return {
      number: Number(found[1]), site: found[2], stuck: Number(found[3]),
      verdict: found[4] || (found[7] ? "as" : found[8]),
      vector: found[5] ? Number(found[5]) : null, output: found[6] || null, as: found[7] ? Number(found[7]) : null,
    };
  });
  if (lines.length < 2) throw new Error("report: too short");
  const byNumber = new Map(faults.map(fault => [fault.number, fault]));
  for (const fault of faults) {
    fault.own = fault.as ? byNumber.get(fault.as) : fault;
    if (!fault.own) throw new Error(`report: no fault ${fault.as}`);
  }
  return { head: lines[0], total: lines[lines.length - 1], faults, byNumber };
}

// The entries of a text of proofs: by the number of a fault its head and its lines.
function readProofs(text) {
  const entries = new Map();
  let now = null;
  for (const line of linesOf(text).slice(1)) {
    const found = /^entry (\d+) (.*)$/.exec(line);
    if (found) entries.set(Number(found[1]), (now = { number: Number(found[1]), head: found[2], lines: [] }));
    else if (now && line !== "end") now.lines.push(line);
  }
  return entries;
}
