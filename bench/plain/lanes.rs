//! 64 candidate bursts of the good machine at once, and an estimate of what each would detect: paths that are sensitized,
//! traced back from the outputs over all frames (critical path tracing, 1983).
use crate::circuit::{Circuit, Kind};
use crate::faults::{Fault, Site};
use crate::words::{Value, Word};

/// In which lanes a line has a sensitized path to an output, and to what a flip-flop takes at the end of the burst.
#[derive(Clone, Copy, Default, PartialEq)]
pub struct Paths {
    pub output: u64,
    pub end: u64,
}

const NOWHERE: Paths = Paths { output: 0, end: 0 };

impl Paths {
    fn within(self, lanes: u64) -> Paths {
        Paths { output: self.output & lanes, end: self.end & lanes }
    }

    fn add(&mut self, other: Paths) {
        self.output |= other.output;
        self.end |= other.end;
    }
}

/// A count in each lane, by bits.
#[derive(Default)]
pub struct Counter {
    bits: Vec<u64>,
}

impl Counter {
    /// Counts one more in these lanes.
    pub fn add(&mut self, mut lanes: u64) {
        for bit in self.bits.iter_mut() {
            let carry = *bit & lanes;
            *bit ^= lanes;
            lanes = carry;
            if lanes == 0 {
                return;
            }
        }
        if lanes != 0 {
            self.bits.push(lanes);
        }
    }

    pub fn lane(&self, k: usize) -> i64 {
        self.bits.iter().enumerate().map(|(i, bit)| ((bit >> k & 1) as i64) << i).sum()
    }
}

pub struct Lanes<'c> {
    circuit: &'c Circuit,
    /// What each net shows, frame by frame.
    words: Vec<Word>,
    /// The paths from each net, each pin and what each flip-flop holds, in the frame that is traced.
    nets: Vec<Paths>,
    pins: Vec<Paths>,
    latches: Vec<Paths>,
    /// The side values of a wide gate's pins before each.
    before: Vec<u64>,
    /// For each fault the lanes that excite it on a path.
    pub found: Vec<Paths>,
}

/// The lanes where a pin lets the effect at another pin through.
fn lets_through(kind: Kind, word: Word) -> u64 {
    match kind {
        Kind::And | Kind::Nand => word.one,
        Kind::Or | Kind::Nor => word.zero,
        _ => word.one | word.zero,
    }
}

impl<'c> Lanes<'c> {
    pub fn new(circuit: &'c Circuit, faults: usize) -> Lanes<'c> {
        Lanes {
            circuit,
            words: Vec::new(),
            nets: vec![NOWHERE; circuit.nets()],
            pins: vec![NOWHERE; circuit.args.items().len()],
            latches: vec![NOWHERE; circuit.dffs()],
            before: Vec::new(),
            found: vec![NOWHERE; faults],
        }
    }

    /// Runs the bursts from one state. `bits` is by frame and input.
    pub fn run(&mut self, state: &[Value], bits: &[u64], frames: usize) {
        let c = self.circuit;
        let nets = c.nets();
        self.words.resize(nets * frames, Word::splat(Value::Unknown));
        for t in 0..frames {
            let (before, rest) = self.words.split_at_mut(nets * t);
            let now = &mut rest[..nets];
            for i in 0..c.inputs {
                let one = bits[t * c.inputs + i];
                now[i] = Word { zero: !one, one };
            }
            for j in 0..c.dffs() {
                now[c.inputs + j] = if t == 0 { Word::splat(state[j]) } else { before[nets * (t - 1) + c.data_pins[j] as usize] };
            }
            for (gate, kind) in c.kinds.iter().enumerate() {
                now[c.first_gate_net() + gate] = Word::gate(*kind, c.args.row(gate).iter().map(|arg| now[*arg as usize]));
            }
        }
    }

    /// What the nets show in a frame.
    pub fn frame(&self, t: usize) -> &[Word] {
        &self.words[self.circuit.nets() * t..self.circuit.nets() * (t + 1)]
    }

    /// Traces back over the frames that were run. `looked` are the numbers of the faults that are looked at.
    pub fn trace(&mut self, faults: &[Fault], looked: &[u32], frames: usize) {
        for i in looked {
            self.found[*i as usize] = NOWHERE;
        }
        self.latches.fill(Paths { output: 0, end: !0 });
        for t in (0..frames).rev() {
            self.nets.fill(NOWHERE);
            for output in &self.circuit.outputs {
                self.nets[*output as usize].output = !0;
            }
            for j in 0..self.circuit.dffs() {
                self.nets[self.circuit.data_pins[j] as usize].add(self.latches[j]);
            }
            for gate in (0..self.circuit.gates()).rev() {
                self.trace_gate(gate, t);
            }
            for i in looked {
                self.look_at(faults[*i as usize], *i as usize, t);
            }
            for j in 0..self.circuit.dffs() {
                self.latches[j] = self.nets[self.circuit.inputs + j];
            }
        }
    }

    fn trace_gate(&mut self, gate: usize, t: usize) {
        let c = self.circuit;
        let paths = self.nets[c.first_gate_net() + gate];
        let (range, row, kind) = (c.args.range(gate), c.args.row(gate), c.kinds[gate]);
        if paths == NOWHERE {
            self.pins[range].fill(NOWHERE);
            return;
        }
        let now = &self.words[c.nets() * t..c.nets() * (t + 1)];
        let through = |k: usize| lets_through(kind, now[row[k] as usize]);
        let mut put = |k: usize, lanes: u64| {
            let at_pin = paths.within(lanes);
            self.pins[range.start + k] = at_pin;
            self.nets[row[k] as usize].add(at_pin);
        };
        match row.len() {
            1 => put(0, !0),
            2 => {
                put(0, through(1));
                put(1, through(0));
            }
            pins => {
                self.before.clear();
                let mut sides = !0;
                for k in 0..pins {
                    self.before.push(sides);
                    sides &= through(k);
                }
                sides = !0;
                for k in (0..pins).rev() {
                    put(k, self.before[k] & sides);
                    sides &= through(k);
                }
            }
        }
    }

    /// Adds the lanes where the good value of a fault's line is the other one, on a path.
    fn look_at(&mut self, fault: Fault, i: usize, t: usize) {
        let c = self.circuit;
        let (net, paths) = match fault.site {
            Site::Stem(net) => (net, self.nets[net as usize]),
            Site::DataPin(j) => (c.data_pins[j as usize], self.latches[j as usize]),
            Site::GatePin { gate, pin } => {
                let at = c.args.range(gate as usize).start + pin as usize;
                (c.args.items()[at], self.pins[at])
            }
        };
        let word = self.words[c.nets() * t + net as usize];
        self.found[i].add(paths.within(if fault.bit { word.zero } else { word.one }));
    }
}
