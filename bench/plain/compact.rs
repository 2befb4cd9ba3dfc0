//! Compaction in rounds that leave out runs of vectors, by the method of the crate: a trial runs the faults that the
//! vectors before the run don't detect, first up to 64 that were lost lately or that the run detects.
use crate::circuit::Circuit;
use crate::faults::Fault;
use crate::grading::Grader;

/// How many faults that were lost in the latest trials are kept, and how many are tried before all others.
const RECENT: usize = 32;
const HARD: usize = 64;

type Vectors<'v> = Vec<&'v Vec<bool>>;

/// What a list gives of some faults: for each the vector that detects it, or the place of one that it misses.
fn detections(circuit: &Circuit, faults: &[Fault], which: &[usize], list: &Vectors) -> Result<Vec<usize>, usize> {
    let mut grader = Grader::new(circuit, which.iter().map(|k| faults[*k]).collect());
    let mut seen = 0;
    for vector in list {
        if seen == which.len() {
            break;
        }
        grader.apply(vector);
        while seen < which.len() && grader.verdicts[seen].is_some() {
            seen += 1;
        }
    }
    let found = which.iter().zip(&grader.verdicts).map(|(k, verdict)| verdict.map(|place| place.vector).ok_or(*k));
    found.collect()
}

/// The list, the wanted faults with a vector that detects each, and those that were lost last, the latest last.
struct Graded<'c, 'v> {
    circuit: &'c Circuit,
    wanted: Vec<Fault>,
    list: Vectors<'v>,
    at: Vec<usize>,
    recent: Vec<usize>,
}

impl<'v> Graded<'_, 'v> {
    fn hard(&self, from: usize, to: usize) -> Vec<usize> {
        let mut hard: Vec<usize> = self.recent.iter().rev().copied().filter(|k| self.at[*k] >= from).collect();
        for (k, vector) in self.at.iter().enumerate() {
            if hard.len() < HARD && (from..to).contains(vector) && !hard.contains(&k) {
                hard.push(k);
            }
        }
        hard
    }

    /// Leaves out the vectors from one place on before another, unless a fault is lost.
    fn leave_out(&mut self, from: usize, to: usize) -> bool {
        let mut shorter = self.list.clone();
        shorter.drain(from..to);
        let mut at = self.at.clone();
        let hard = self.hard(from, to);
        let rest: Vec<usize> = (0..at.len()).filter(|k| at[*k] >= from && !hard.contains(k)).collect();
        for which in [hard, rest] {
            match detections(self.circuit, &self.wanted, &which, &shorter) {
                Ok(found) => which.iter().zip(found).for_each(|(k, vector)| at[*k] = vector),
                Err(lost) => {
                    self.recent.retain(|k| *k != lost);
                    if self.recent.len() >= RECENT {
                        self.recent.remove(0);
                    }
                    self.recent.push(lost);
                    return false;
                }
            }
        }
        (self.list, self.at) = (shorter, at);
        true
    }

    fn round(&mut self, most: usize) {
        let mut end = self.list.len();
        while end > 0 {
            let count = (1..=most.min(end)).rev().find(|count| self.leave_out(end - count, end));
            end -= count.unwrap_or(1);
        }
    }
}

/// The vectors of a list that are kept where runs of at most `most` vectors are left out.
pub fn compact<'v>(circuit: &Circuit, faults: &[Fault], vectors: &'v [Vec<bool>], most: usize) -> Vectors<'v> {
    let mut grader = Grader::new(circuit, faults.to_vec());
    vectors.iter().for_each(|vector| grader.apply(vector));
    let found = faults.iter().zip(&grader.verdicts).filter_map(|(fault, place)| place.map(|p| (*fault, p.vector)));
    let (wanted, at) = found.unzip();
    let mut graded = Graded { circuit, wanted, list: vectors.iter().collect(), at, recent: Vec::new() };
    loop {
        let before = graded.list.len();
        graded.round(most);
        if graded.list.len() == before {
            return graded.list;
        }
    }
}
