// Times a window of ht_window, by its export of ht_exports, beside the same method in plain Rust, in one run.
//
// The netlist has 400 inputs, each with a buffer, and no output; the window has 447 frames from an unknown state. So
// there are 178,800 variables, as many gates, and 357,600 cells.
use std::hint::black_box;
use std::time::{Duration, Instant};

const INPUTS: usize = 400;
const FRAMES: usize = 447;
const NETS: usize = 2 * INPUTS;
const ROUNDS: usize = 9;

#[link(name = "ht_exports", kind = "static")]
unsafe extern "C" {
    fn ht_window_decisions(text: *const u8, len: usize, frames: u32, decide: bool, undo: bool) -> u64;
}

fn netlist() -> String {
    (1..=INPUTS)
        .map(|k| format!("INPUT(a{k})\nz{k} = BUFF(a{k})\n"))
        .collect()
}

/// A window over sets of pairs, each a word of nine bits, with buffers alone and no stuck line.
struct Plain {
    // what reads each net, in one row: the nets of gates
    starts: Vec<u32>,
    readers: Vec<u32>,
    driver: Vec<u32>,
    rank: Vec<u32>,
    cells: Vec<u16>,
    trail: Vec<(u32, u16)>,
    values: Vec<Option<u8>>,
    value_trail: Vec<(u32, Option<u8>)>,
    marks: Vec<u64>,
    path: Vec<(u32, u8)>,
    pending: Vec<bool>,
    low: usize,
    high: usize,
}

const BOTH: u16 = 0b000_010_001;
const ONES: u16 = 0b000_010_000;
const ZEROS: u16 = 0b000_000_001;

impl Plain {
    fn new() -> Plain {
        let mut window = Plain {
            starts: (0..=NETS).map(|x| x.min(INPUTS) as u32).collect(),
            readers: (0..INPUTS).map(|x| (INPUTS + x) as u32).collect(),
            driver: (0..INPUTS as u32).collect(),
            rank: (0..INPUTS as u32).collect(),
            cells: vec![BOTH; FRAMES * NETS],
            trail: Vec::new(),
            values: vec![None; FRAMES * INPUTS],
            value_trail: Vec::new(),
            marks: Vec::new(),
            path: Vec::new(),
            pending: vec![true; FRAMES * INPUTS],
            low: 0,
            high: FRAMES * INPUTS,
        };
        window.settle();
        window.trail.clear();
        window
    }

    fn settle(&mut self) {
        let mut position = self.low;
        while position < self.high {
            if self.pending[position] {
                self.pending[position] = false;
                let (frame, gate) = (position / INPUTS, position % INPUTS);
                let value = self.cells[frame * NETS + self.driver[gate] as usize];
                let index = frame * NETS + INPUTS + gate;
                if self.cells[index] != value {
                    self.trail.push((index as u32, self.cells[index]));
                    self.cells[index] = value;
                    self.touch_loads(frame, INPUTS + gate);
                }
            }
            position += 1;
        }
        self.low = usize::MAX;
        self.high = 0;
    }

    fn touch_loads(&mut self, frame: usize, net: usize) {
        for k in self.starts[net] as usize..self.starts[net + 1] as usize {
            let gate = self.readers[k] as usize - INPUTS;
            let position = frame * INPUTS + self.rank[gate] as usize;
            self.pending[position] = true;
            self.low = self.low.min(position);
            self.high = self.high.max(position + 1);
        }
    }

    fn decide(&mut self, var: usize, value: u8) {
        self.marks.push(self.trail.len() as u64);
        self.path.push((var as u32, value));
        self.value_trail.push((var as u32, self.values[var]));
        self.values[var] = Some(value);
        let (frame, net) = (var / INPUTS, var % INPUTS);
        let index = frame * NETS + net;
        self.trail.push((index as u32, self.cells[index]));
        self.cells[index] = if value == 1 { ONES } else { ZEROS };
        self.touch_loads(frame, net);
        self.settle();
    }

    fn undo_to(&mut self, count: usize) {
        let mark = self.marks[count];
        while self.trail.len() as u64 > mark {
            let (index, value) = self.trail.pop().unwrap();
            self.cells[index as usize] = value;
        }
        while self.value_trail.len() > count {
            let (index, value) = self.value_trail.pop().unwrap();
            self.values[index as usize] = value;
        }
        self.path.truncate(count);
        self.marks.truncate(count);
    }
}

fn plain(decide: bool, undo: bool) -> u64 {
    let mut window = Plain::new();
    if decide {
        for var in 0..FRAMES * INPUTS {
            if window.values[var].is_none() {
                window.decide(var, 1);
            }
        }
    }
    if undo {
        while !window.marks.is_empty() {
            window.undo_to(window.marks.len() - 1);
        }
        assert!(window.cells.iter().all(|cell| *cell == BOTH));
    } else if decide {
        assert!(window.cells.iter().all(|cell| *cell == ONES));
    }
    window.marks.len() as u64
}

fn proved(text: &str, frames: usize, decide: bool, undo: bool) -> u64 {
    unsafe { ht_window_decisions(text.as_ptr(), text.len(), frames as u32, decide, undo) }
}

/// The most bytes that this process has had so far.
fn peak() -> usize {
    let status = std::fs::read_to_string("/proc/self/status").unwrap();
    let line = status.lines().find(|line| line.starts_with("VmHWM:")).unwrap();
    line.split_whitespace().nth(1).unwrap().parse::<usize>().unwrap() * 1024
}

/// The bytes that stand for each cell once the window is made, and once all is decided.
fn memory(text: &str) {
    assert_eq!(proved(text, 1, true, false), INPUTS as u64);
    let before = peak();
    assert_eq!(proved(text, FRAMES, false, false), 0);
    let made = peak() - before;
    assert_eq!(proved(text, FRAMES, true, false), (FRAMES * INPUTS) as u64);
    let decided = peak() - before;
    let cells = (FRAMES * NETS) as f64;
    println!(
        "ht_window new {:.1} bytes a cell, all decided {:.1}",
        made as f64 / cells,
        decided as f64 / cells
    );
}

/// The best time of some runs.
fn best(run: impl Fn() -> u64, want: usize) -> Duration {
    (0..ROUNDS)
        .map(|_| {
            let start = Instant::now();
            let stand = black_box(run());
            let time = start.elapsed();
            assert_eq!(stand, want as u64);
            time
        })
        .min()
        .unwrap()
}

fn row(name: &str, run: impl Fn(bool, bool) -> u64) {
    let all = FRAMES * INPUTS;
    let made = best(|| run(false, false), 0);
    let decided = best(|| run(true, false), all);
    let undone = best(|| run(true, true), 0);
    let ms = |time: Duration| time.as_secs_f64() * 1000.0;
    println!(
        "{name:8} new {:6.1} ms  all decided {:6.1} ms  all undone {:6.1} ms",
        ms(made),
        ms(decided.saturating_sub(made)),
        ms(undone.saturating_sub(decided)),
    );
}

fn main() {
    let text = netlist();
    memory(&text);
    row("ht_window", |decide, undo| proved(&text, FRAMES, decide, undo));
    row("plain", plain);
}
