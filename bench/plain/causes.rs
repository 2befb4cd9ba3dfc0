//! Why vectors don't detect faults, packed: the machines of 64 faults in one frame, of those alone that the frame can
//! change. A fault whose machine holds the good latches and whose line carries the stuck value changes nothing.
use crate::circuit::Circuit;
use crate::faults::{Fault, FaultList, Site, SiteText};
use crate::grading::{Differences, Group, Place};
use crate::texts::head;
use crate::words::Value::{self, Unknown};
use std::io::{self, Write};

pub const ROWS: [&str; 6] = ["detected", "possible", "stored", "stopped", "unexcited", "unknown"];

/// What the vectors so far show of a fault.
#[derive(Default)]
pub struct Sightings {
    detected: Option<Place>,
    possible: Option<Place>,
    stored: Option<(usize, usize)>,
    excited: Option<usize>,
    told: bool,
}

impl Sightings {
    /// The row of the table, and what stands after its word.
    fn row(&self, circuit: &Circuit) -> (usize, String) {
        let shown = |place: Place| format!(" {} {}", place.vector + 1, circuit.names[circuit.outputs[place.output] as usize]);
        if let Some(place) = self.detected {
            return (0, shown(place));
        }
        if let Some(place) = self.possible {
            return (1, shown(place));
        }
        if let Some((vector, j)) = self.stored {
            return (2, format!(" {} {}", vector + 1, circuit.names[circuit.inputs + j]));
        }
        match self.excited {
            Some(vector) => (3, format!(" {}", vector + 1)),
            None => (if self.told { 4 } else { 5 }, String::new()),
        }
    }
}

/// The net whose value a line carries.
fn line_net(circuit: &Circuit, site: Site) -> u32 {
    match site {
        Site::Stem(net) => net,
        Site::DataPin(j) => circuit.data_pins[j as usize],
        Site::GatePin { gate, pin } => circuit.args.row(gate as usize)[pin as usize],
    }
}

pub struct Watcher<'c> {
    circuit: &'c Circuit,
    group: Group<'c>,
    faults: Vec<Fault>,
    nets: Vec<u32>,
    pub seen: Vec<Sightings>,
    differences: Vec<Differences>,
    live: Vec<u32>,
    latches: Vec<Value>,
    vectors: usize,
}

impl<'c> Watcher<'c> {
    pub fn new(circuit: &'c Circuit, faults: Vec<Fault>) -> Watcher<'c> {
        Watcher {
            circuit,
            group: Group::new(circuit),
            nets: faults.iter().map(|fault| line_net(circuit, fault.site)).collect(),
            seen: faults.iter().map(|_| Sightings::default()).collect(),
            differences: vec![Vec::new(); faults.len()],
            live: (0..faults.len() as u32).collect(),
            faults,
            latches: vec![Unknown; circuit.dffs()],
            vectors: 0,
        }
    }

    /// Applies one more vector.
    pub fn apply(&mut self, bits: &[bool]) {
        self.group.start(bits, &self.latches);
        let mut lanes = Vec::with_capacity(64);
        for i in std::mem::take(&mut self.live) {
            if self.seen[i as usize].detected.is_none() {
                self.live.push(i);
                if self.note_carried(i as usize) {
                    lanes.push(i);
                }
            }
            if lanes.len() == 64 {
                self.run(&lanes);
                lanes.clear();
            }
        }
        if !lanes.is_empty() {
            self.run(&lanes);
        }
        for (j, latch) in self.latches.iter_mut().enumerate() {
            *latch = self.group.good_next(j);
        }
        self.vectors += 1;
    }

    /// Notes what the line of a fault carries; whether the frame can change anything in its machine.
    fn note_carried(&mut self, i: usize) -> bool {
        let (value, stuck) = (self.group.good[self.nets[i] as usize], Value::of(self.faults[i].bit));
        let seen = &mut self.seen[i];
        seen.told |= value != Unknown;
        if value != Unknown && value != stuck {
            seen.excited = seen.excited.or(Some(self.vectors));
        }
        value != stuck || !self.differences[i].is_empty()
    }

    fn run(&mut self, lanes: &[u32]) {
        for i in lanes {
            self.group.add(self.faults[*i as usize], &self.differences[*i as usize]);
            self.differences[*i as usize].clear();
        }
        self.group.settle();
        let mut wanted = !0;
        let mut unsure_wanted = !0;
        for output in 0..self.circuit.outputs.len() {
            let place = Place { vector: self.vectors, output };
            for_each_lane(self.group.opposite(output) & wanted, &mut wanted, |k| self.seen[lanes[k] as usize].detected = Some(place));
            if self.group.good_output(output) != Unknown {
                let unsure = self.group.unknown(output) & unsure_wanted;
                for_each_lane(unsure, &mut unsure_wanted, |k| {
                    let seen = lanes.get(k).map(|i| &mut self.seen[*i as usize]);
                    if let Some(seen) = seen {
                        seen.possible = seen.possible.or(Some(place));
                    }
                });
            }
        }
        for j in 0..self.circuit.dffs() {
            let (word, good) = (self.group.next(j), self.group.good_next(j));
            let mut all = 0;
            for_each_lane(word.other_than(good), &mut all, |k| {
                let i = lanes[k] as usize;
                self.differences[i].push((j as u32, word.lane(k as u32)));
                if good != Unknown {
                    self.seen[i].stored = self.seen[i].stored.or(Some((self.vectors, j)));
                }
            });
        }
        self.group.clear();
    }
}

/// Takes the lanes of a set one by one, and out of those that are wanted.
fn for_each_lane(lanes: u64, wanted: &mut u64, mut note: impl FnMut(usize)) {
    *wanted &= !lanes;
    let mut left = lanes;
    while left != 0 {
        note(left.trailing_zeros() as usize);
        left &= left - 1;
    }
}

/// Writes the report, and says its total line.
pub fn write_report(circuit: &Circuit, list: &FaultList, seen: &[Sightings], report: &mut impl Write) -> io::Result<()> {
    writeln!(report, "{}", head(circuit, list))?;
    let (mut counts, mut seen) = ([0; 6], seen.iter());
    for (i, fault) in list.faults.iter().enumerate() {
        write!(report, "{} {} s-a-{} ", i + 1, SiteText(circuit, fault.site), u8::from(fault.bit))?;
        let representative = list.representatives[i];
        if representative as usize != i {
            writeln!(report, "as {}", representative + 1)?;
        } else if let Some(seen) = seen.next() {
            let (row, place) = seen.row(circuit);
            counts[row] += 1;
            writeln!(report, "{}{place}", ROWS[row])?;
        }
    }
    let counted = ROWS.iter().zip(counts).map(|(row, count)| format!(" {row} {count}")).collect::<String>();
    let total = format!("total {}{counted}", counts.iter().sum::<usize>());
    writeln!(report, "{total}")?;
    report.flush()?;
    println!("{total}");
    Ok(())
}
