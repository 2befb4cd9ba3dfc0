//! Vectors that are bred: the best of 64 candidate bursts of many generations is applied, by what sensitized paths say that
//! it detects (after CRIS 1992, GATEST 1994 and STRATEGATE 1997).
use crate::circuit::Circuit;
use crate::faults::Fault;
use crate::grading::Grader;
use crate::lanes::{Counter, Lanes};
use crate::random::Words;
use crate::words::Value;

const LANES: usize = 64;
const SHORTEST: usize = 32;
const LONGEST: usize = 128;
const MOST_WORDS: usize = 1 << 21;
const LEAST_GENERATIONS: usize = 6;
const MOST_GENERATIONS: usize = 60;
/// So many vectors make a segment.
const SEGMENT: usize = 32;
const MOST_IDLE: usize = 8;
const MOST_DRY: usize = 20;
const MOST_HOPES: u16 = 4;
const MOST_STORES: u16 = 12;
const KEPT: usize = 128;
const YOUNG: usize = 16;
const BEST: usize = 4;
const FRESH: usize = 4;
const WEIGHTS: [u32; 7] = [0, 5, 26, 128, 230, 251, 256];
const HOLDS: [usize; 5] = [1, 1, 2, 4, 8];
const RATES: [u32; 4] = [0, 2, 8, 24];
const FLIPS: [u32; 3] = [8, 32, 128];

/// A burst, or a segment of other vectors, that detected something.
struct Kept {
    rows: Vec<Vec<bool>>,
    gain: usize,
}

/// The bursts that are kept, the oldest first.
#[derive(Default)]
struct KeptBursts {
    bursts: Vec<Kept>,
}

impl KeptBursts {
    fn keep(&mut self, rows: Vec<Vec<bool>>, gain: usize) {
        self.bursts.push(Kept { rows, gain });
        if self.bursts.len() > KEPT {
            let worst = (0..self.bursts.len() - YOUNG).min_by_key(|k| (self.bursts[*k].gain, *k)).unwrap();
            self.bursts.remove(worst);
        }
    }

    /// A row that is drawn: a burst and a place in it.
    fn draw(&self, words: &mut Words) -> (usize, usize) {
        let at = words.below(self.bursts.len());
        (at, words.below(self.bursts[at].rows.len()))
    }

    /// The same, where of two bursts the one with more gain is taken half of the time.
    fn draw_good(&self, words: &mut Words) -> (usize, usize) {
        let mut at = words.below(self.bursts.len());
        let other = words.below(self.bursts.len());
        if words.below(2) == 0 && self.bursts[other].gain > self.bursts[at].gain {
            at = other;
        }
        (at, words.below(self.bursts[at].rows.len()))
    }
}

/// 64 bursts of one length, a word for each frame and input.
struct Candidates {
    inputs: usize,
    frames: usize,
    bits: Vec<u64>,
}

/// Where a child comes from: two lanes, and where the second takes over, by inputs or by vectors.
struct Parents {
    first: usize,
    second: usize,
    by_input: bool,
    cut: usize,
}

impl Candidates {
    fn fresh(inputs: usize, frames: usize, words: &mut Words, kept: &KeptBursts) -> Candidates {
        let mut candidates = Candidates { inputs, frames, bits: vec![0; frames * inputs] };
        for k in 0..LANES {
            candidates.renew(k, words, kept);
        }
        candidates
    }

    fn set(&mut self, t: usize, i: usize, k: usize, bit: bool) {
        let word = &mut self.bits[t * self.inputs + i];
        *word = *word & !(1 << k) | u64::from(bit) << k;
    }

    /// The vectors of a lane.
    fn rows(&self, k: usize) -> Vec<Vec<bool>> {
        self.bits.chunks(self.inputs).map(|row| row.iter().map(|word| word >> k & 1 == 1).collect()).collect()
    }

    /// A new candidate in lane k, by weights or of rows that are kept.
    fn renew(&mut self, k: usize, words: &mut Words, kept: &KeptBursts) {
        match if kept.bursts.is_empty() { 0 } else { words.below(4) } {
            0 => self.renew_by_weights(k, words),
            kind => self.renew_of_rows(kind, k, words, kept),
        }
    }

    fn renew_by_weights(&mut self, k: usize, words: &mut Words) {
        for i in 0..self.inputs {
            let weight = WEIGHTS[words.below(7)];
            let hold = HOLDS[words.below(5)];
            let mut bit = false;
            for t in 0..self.frames {
                if t % hold == 0 {
                    bit = words.next() % 256 < weight;
                }
                self.set(t, i, k, bit);
            }
        }
    }

    fn renew_of_rows(&mut self, kind: usize, k: usize, words: &mut Words, kept: &KeptBursts) {
        let rate = RATES[words.below(4)];
        let (mut at, mut row) = (0, 0);
        for t in 0..self.frames {
            if t == 0 || kind == 1 || row == kept.bursts[at].rows.len() || kind == 3 && words.below(8) == 0 {
                (at, row) = kept.draw_good(words);
            }
            for i in 0..self.inputs {
                let flip = rate > 0 && words.next() % 256 < rate;
                self.set(t, i, k, kept.bursts[at].rows[row][i] != flip);
            }
            row += 1;
        }
    }

    /// The next generation; `order` has the lanes from the best to the worst.
    fn breed(&mut self, order: &[usize], words: &mut Words, kept: &KeptBursts) {
        let parents: Vec<Parents> = (0..LANES).map(|k| self.parents(k, order, words)).collect();
        for t in 0..self.frames {
            for i in 0..self.inputs {
                let word = self.bits[t * self.inputs + i];
                let bit = |k: usize, it: &Parents| {
                    let parent = if (if it.by_input { i } else { t }) >= it.cut { it.second } else { it.first };
                    (word >> parent & 1) << k
                };
                self.bits[t * self.inputs + i] = parents.iter().enumerate().map(|(k, it)| bit(k, it)).sum();
            }
        }
        for k in BEST..LANES - FRESH {
            self.change(k, words, kept);
        }
        for k in LANES - FRESH..LANES {
            self.renew(k, words, kept);
        }
    }

    fn parents(&self, k: usize, order: &[usize], words: &mut Words) -> Parents {
        if k < BEST {
            return Parents { first: order[k], second: order[k], by_input: false, cut: 0 };
        }
        let mut pick = || order[words.below(LANES).min(words.below(LANES)).min(words.below(LANES))];
        let first = pick();
        let second = if words.below(2) == 0 { first } else { order[words.below(LANES).min(words.below(LANES)).min(words.below(LANES))] };
        let by_input = words.below(4) == 3;
        Parents { first, second, by_input, cut: words.below(if by_input { self.inputs } else { self.frames }) }
    }

    /// Changes a child.
    fn change(&mut self, k: usize, words: &mut Words, kept: &KeptBursts) {
        match words.below(4) {
            0 => {
                for _ in 0..1 + words.below(8) {
                    self.bits[words.below(self.inputs * self.frames)] ^= 1 << k;
                }
            }
            1 => {
                for _ in 0..1 + words.below(2) {
                    let (i, from) = (words.below(self.inputs), words.below(self.frames));
                    let to = (from + 1 + words.below(self.frames)).min(self.frames);
                    let bit = words.below(2) == 0;
                    (from..to).for_each(|t| self.set(t, i, k, bit));
                }
            }
            2 => {
                let (t, rate) = (words.below(self.frames), FLIPS[words.below(3)]);
                for i in 0..self.inputs {
                    if words.next() % 256 < rate {
                        self.bits[t * self.inputs + i] ^= 1 << k;
                    }
                }
            }
            _ if kept.bursts.is_empty() => {}
            _ => {
                let t = words.below(self.frames);
                let (at, row) = kept.draw(words);
                (0..self.inputs).for_each(|i| self.set(t, i, k, kept.bursts[at].rows[row][i]));
            }
        }
    }
}

/// The best candidate so far, and what it promises of each fault that is looked at: shown, or stored.
struct Best {
    score: i64,
    rows: Vec<Vec<bool>>,
    promises: Vec<[bool; 2]>,
}

pub struct Breeder<'c> {
    circuit: &'c Circuit,
    faults: &'c [Fault],
    words: Words,
    lanes: Lanes<'c>,
    kept: KeptBursts,
    /// Of each fault how often it was hoped for, and stored, and then not detected.
    false_hopes: Vec<[u16; 2]>,
    /// The pairs of a net and a bit that the good machine hasn't shown.
    unseen: Vec<(u32, Value)>,
    frames: usize,
    dry: usize,
}

impl<'c> Breeder<'c> {
    pub fn new(circuit: &'c Circuit, faults: &'c [Fault], seed: u64) -> Breeder<'c> {
        Breeder {
            circuit,
            faults,
            words: Words::from_seed(seed),
            lanes: Lanes::new(circuit, faults.len()),
            kept: KeptBursts::default(),
            false_hopes: vec![[0; 2]; faults.len()],
            unseen: (0..circuit.nets() as u32).flat_map(|net| [(net, Value::Zero), (net, Value::One)]).collect(),
            frames: SHORTEST,
            dry: 0,
        }
    }

    /// Applies vectors that aren't bred. Their segments that detect something are kept.
    pub fn take_in(&mut self, grader: &mut Grader, vectors: &[Vec<bool>]) {
        for segment in vectors.chunks(SEGMENT) {
            let before = grader.live.len();
            segment.iter().for_each(|vector| self.apply(grader, vector));
            if grader.live.len() < before {
                self.kept.keep(segment.to_vec(), before - grader.live.len());
            }
        }
    }

    /// Applies a vector, and notes the values that the good machine shows.
    fn apply(&mut self, grader: &mut Grader, vector: &[bool]) {
        grader.apply(vector);
        self.unseen.retain(|(net, value)| grader.group.good[*net as usize] != *value);
    }

    /// The score of each lane.
    fn scores(&self, looked: &[u32], frames: usize, definite: i64) -> Vec<i64> {
        let [mut hoped, mut stored, mut new, mut known] = <[Counter; 4]>::default();
        for i in looked {
            let found = self.lanes.found[*i as usize];
            hoped.add(found.output);
            if self.false_hopes[*i as usize][1] < MOST_STORES {
                stored.add(found.end & !found.output);
            }
        }
        let mut shown = vec![0; self.unseen.len()];
        for t in 0..frames {
            let frame = self.lanes.frame(t);
            for (lanes, (net, value)) in shown.iter_mut().zip(&self.unseen) {
                *lanes |= frame[*net as usize].lanes_of(*value);
            }
        }
        shown.into_iter().for_each(|lanes| new.add(lanes));
        for net in &self.circuit.data_pins {
            let word = self.lanes.frame(frames - 1)[*net as usize];
            known.add(word.zero | word.one);
        }
        (0..LANES).map(|k| 8 * hoped.lane(k) + 2 * stored.lane(k) + 4 * new.lane(k) + 8 * (known.lane(k) - definite)).collect()
    }

    /// The best candidate of all generations from a state of the good machine, of so many vectors.
    fn best(&mut self, state: &[Value], looked: &[u32], frames: usize) -> Best {
        let definite = state.iter().filter(|value| **value != Value::Unknown).count() as i64;
        let mut candidates = Candidates::fresh(self.circuit.inputs, frames, &mut self.words, &self.kept);
        let mut best = Best { score: i64::MIN, rows: Vec::new(), promises: Vec::new() };
        let (mut idle, mut mark) = (0, 0);
        for generation in 1.. {
            self.lanes.run(state, &candidates.bits, frames);
            self.lanes.trace(self.faults, looked, frames);
            let scores = self.scores(looked, frames, definite);
            let mut order: Vec<usize> = (0..LANES).collect();
            order.sort_by_key(|k| (-scores[*k], *k));
            let k = order[0];
            if scores[k] > best.score {
                let promise = |i: &u32| {
                    let found = self.lanes.found[*i as usize];
                    [found.output >> k & 1 == 1, found.end >> k & 1 == 1]
                };
                best = Best { score: scores[k], rows: candidates.rows(k), promises: looked.iter().map(promise).collect() };
            }
            if best.score > mark + mark / 16 {
                (mark, idle) = (best.score, 0);
            } else {
                idle += 1;
            }
            if idle >= MOST_IDLE && generation >= LEAST_GENERATIONS || generation == MOST_GENERATIONS {
                break;
            }
            candidates.breed(&order, &mut self.words, &self.kept);
        }
        best
    }

    /// Breeds a burst of at most `most` vectors, applies it and learns from it. Its vectors.
    pub fn burst(&mut self, grader: &mut Grader, most: usize) -> Vec<Vec<bool>> {
        let looked: Vec<u32> = grader.live.iter().copied().filter(|i| self.false_hopes[*i as usize][0] < MOST_HOPES).collect();
        let best = self.best(&grader.latches.clone(), &looked, self.frames.min(most));
        let before = grader.live.len();
        for vector in &best.rows {
            self.apply(grader, vector);
        }
        let gain = before - grader.live.len();
        for (i, [hoped, stored]) in looked.iter().zip(&best.promises) {
            if grader.verdicts[*i as usize].is_none() {
                self.false_hopes[*i as usize][0] += u16::from(*hoped);
                self.false_hopes[*i as usize][1] += u16::from(*stored && !hoped);
            }
        }
        if gain > 0 || self.kept.bursts.is_empty() {
            self.kept.keep(best.rows.clone(), gain);
        }
        self.set_length(gain);
        best.rows
    }

    fn set_length(&mut self, gain: usize) {
        if gain > 0 {
            (self.dry, self.frames) = (0, SHORTEST);
            return;
        }
        let longest = LONGEST.min((MOST_WORDS / self.circuit.nets()).max(SHORTEST));
        (self.dry, self.frames) = (self.dry + 1, (2 * self.frames).min(longest));
        if self.dry >= MOST_DRY {
            self.false_hopes.fill([0; 2]);
            self.dry = 0;
        }
    }
}
