//! The judging of a report and of proofs, without the search.
use crate::circuit::Circuit;
use crate::clauses::{Clause, Literals, Under};
use crate::faults::{Fault, FaultList, SiteText};
use crate::grading::{Group, Place, detects, step_both};
use crate::guide::{Choice, wants};
use crate::parse::{Mark, Reader, lines, number};
use crate::search::{Token, Tree};
use crate::sets;
use crate::texts::{Said, head, total};
use crate::windows::{Plan, Spot, Start, Window};
use crate::words::Value::{self, Unknown};
use crate::work::{Aim, BACK_LIMIT, Entry, FORWARD_FRAMES, Told, ToldFrame};
use std::rc::Rc;

const MAX_BUDGET: u64 = 100_000;

/// The vectors of a text, or the first line that is none.
pub fn read_tests(circuit: &Circuit, text: &[u8]) -> Result<Vec<Vec<bool>>, String> {
    let vector = |(at, line): (usize, &[u8])| {
        let bit = |byte: &u8| matches!(byte, b'0' | b'1').then_some(*byte == b'1');
        let bits: Option<Vec<bool>> = line.iter().map(bit).collect();
        bits.filter(|bits| bits.len() == circuit.inputs).ok_or_else(|| format!("tests line {}", at + 1))
    };
    lines(text).enumerate().map(vector).collect()
}

/// What each flip-flop holds before the first vector.
pub fn read_start(text: &[u8]) -> Vec<Value> {
    let value = |byte: &u8| match byte {
        b'0' | b'1' => Value::of(*byte == b'1'),
        _ => Value::Unknown,
    };
    lines(text).next().unwrap_or_default().iter().map(value).collect()
}

/// The budget of a report and what it says of the representatives, or the first line that is wrong.
pub fn read_report(
    circuit: &Circuit,
    list: &FaultList,
    verdicts: &[Option<Place>],
    text: &[u8],
) -> Result<(usize, Vec<Said>), String> {
    let denied = |at: usize| format!("report line {}", at + 1);
    let mut given = lines(text);
    let front = format!("{} budget ", head(circuit, list));
    let budget = given.next().and_then(|line| number(line.strip_prefix(front.as_bytes())?, MAX_BUDGET));
    let budget = budget.ok_or_else(|| denied(0))? as usize;
    let mut said = Vec::new();
    for (i, fault) in list.faults.iter().enumerate() {
        let front = format!("{} {} s-a-{} ", i + 1, SiteText(circuit, fault.site), u8::from(fault.bit));
        let rest = given.next().and_then(|line| line.strip_prefix(front.as_bytes())).ok_or_else(|| denied(i + 1))?;
        let representative = list.representatives[i];
        let wanted = if representative as usize != i {
            (rest == format!("as {}", representative + 1).as_bytes()).then_some(None)
        } else {
            claim(circuit, verdicts[said.len()], rest).map(Some)
        };
        said.extend(wanted.ok_or_else(|| denied(i + 1))?);
    }
    let last = list.faults.len() + 1;
    if given.next() != Some(total(&said, true).as_bytes()) {
        return Err(denied(last));
    }
    if given.next().is_some() { Err(denied(last + 1)) } else { Ok((budget, said)) }
}

/// What is said of a representative, where it agrees with its verdict.
fn claim(circuit: &Circuit, verdict: Option<Place>, text: &[u8]) -> Option<Said> {
    let may = match verdict {
        Some(place) => vec![Said::Detected(place)],
        None => vec![Said::Untestable, Said::Aborted],
    };
    may.into_iter().find(|said| text == said.text(circuit).as_bytes())
}

/// What judges entries, by the windows of their faults.
pub struct Judge<'c> {
    circuit: &'c Circuit,
    tree: Tree<'c>,
    group: Group<'c>,
    budget: usize,
}

/// Whether tokens of this weight leave no room for one more that weighs a unit.
fn fills(budget: usize, weight: usize, unit: usize) -> bool {
    weight <= budget && budget < weight + unit
}

impl<'c> Judge<'c> {
    pub fn new(plan: &'c Plan<'c>, budget: usize) -> Judge<'c> {
        Judge { circuit: plan.circuit, tree: Tree::new(plan), group: Group::new(plan.circuit), budget }
    }

    /// The first trouble of the proofs.
    pub fn judge(&mut self, list: &FaultList, said: &[Said], text: &[u8]) -> Result<(), String> {
        let own = list.own();
        let mut reader = Reader::new(text);
        let malformed = |reader: &Reader| format!("proofs line {}", reader.at + 1);
        reader.head().ok_or_else(|| malformed(&reader))?;
        let (mut last, mut entry, mut next) = (0, None, 0);
        loop {
            let mark = reader.mark(last).ok_or_else(|| malformed(&reader))?;
            if let Some(entry) = entry.take() {
                let right = own
                    .binary_search(&(last - 1))
                    .is_ok_and(|k| self.is_right(list.faults[last as usize - 1], said[k], &entry));
                if !right {
                    return Err(format!("fault {last}"));
                }
            }
            let end = if let Mark::Entry { number, .. } = mark { number } else { u32::MAX };
            while next < own.len() && own[next] + 1 < end {
                if own[next] + 1 != last && !matches!(said[next], Said::Detected(_)) {
                    return Err(format!("fault {}", own[next] + 1));
                }
                next += 1;
            }
            let Mark::Entry { number, kind } = mark else { break };
            last = number;
            entry = Some(reader.entry(kind).ok_or_else(|| malformed(&reader))?);
        }
        if reader.is_at_end() { Ok(()) } else { Err(malformed(&reader)) }
    }

    fn is_right(&mut self, fault: Fault, said: Said, entry: &Entry) -> bool {
        match (said, entry) {
            (Said::Detected(_), _) => true,
            (Said::Untestable, Entry::Untestable { z, tokens }) => self.is_refuted(fault, z, None, tokens),
            (Said::Untestable, Entry::UntestableFrom { state, clauses, z, tokens }) => {
                let literals: Rc<[Literals]> = clauses.iter().map(|clause| clause.literals.clone()).collect();
                self.is_invariant(state, clauses, &literals)
                    && self.is_refuted(fault, z, Some(Under { clauses: literals, broken: None }), tokens)
            }
            (Said::Aborted, Entry::Aborted { told, walk, aim, sweep }) => {
                self.is_told(fault, told, walk.as_deref())
                    && self.is_aim(fault, told.first(), aim.as_ref())
                    && self.is_sweep(fault, sweep)
            }
            _ => false,
        }
    }

    fn is_invariant(&mut self, state: &[bool], clauses: &[Clause], literals: &Rc<[Literals]>) -> bool {
        let dffs = self.circuit.dffs();
        let is_held = |clause: &Literals| {
            clause.iter().all(|(j, _)| (*j as usize) < dffs) && clause.iter().any(|(j, bit)| state[*j as usize] == *bit)
        };
        if state.len() != dffs || !literals.iter().all(is_held) {
            return false;
        }
        clauses.iter().all(|clause| {
            let under = Under { clauses: literals.clone(), broken: Some(clause.literals.clone()) };
            self.tree.begin_under(None, Start::OneFrame { z: vec![false; dffs] }, under);
            self.tree.judge(&clause.tokens) == Some(true)
        })
    }

    fn is_refuted(&mut self, fault: Fault, z: &[u32], under: Option<Under>, tokens: &[Token]) -> bool {
        let dffs = self.circuit.dffs();
        if z.iter().any(|j| *j as usize >= dffs) {
            return false;
        }
        let mut marks = vec![false; dffs];
        z.iter().for_each(|j| marks[*j as usize] = true);
        let start = Start::OneFrame { z: marks };
        match under {
            None => self.tree.begin(Some(fault), 1, start),
            Some(under) => self.tree.begin_under(Some(fault), start, under),
        }
        self.tree.judge(tokens) == Some(true)
    }

    /// Whether the told frames are a chain, and the walk after them is there where it has to be, and fills the budget.
    fn is_told(&mut self, fault: Fault, told: &[Told], walk: Option<&[Token]>) -> bool {
        let mut z = vec![false; self.circuit.dffs()];
        let mut ended = false;
        for told in told {
            self.tree.begin(Some(fault), 1, Start::OneFrame { z: z.clone() });
            if ended || !self.tree.here_mut().tells(told) {
                return false;
            }
            match told.place {
                Spot::Output(_) => ended = true,
                Spot::State(j) => z[j as usize] = true,
            }
        }
        let Some(tokens) = walk else { return ended };
        self.tree.begin(Some(fault), 1, Start::OneFrame { z });
        !ended && self.is_spent(1, tokens)
    }

    /// Whether tokens are an open walk that fills the budget.
    fn is_spent(&mut self, unit: usize, tokens: &[Token]) -> bool {
        fills(self.budget, tokens.len() * unit, unit) && self.tree.judge(tokens) == Some(false)
    }

    fn is_aim(&mut self, fault: Fault, told: Option<&Told>, aim: Option<&Aim>) -> bool {
        let (Some(told), Some(aim)) = (told, aim) else { return told.is_none() && aim.is_none() };
        let frame = ToldFrame::of(self.circuit, &mut self.group, fault, told);
        let (unit, closed, tokens) = match aim {
            Aim::Attempt { back, ahead } => return self.is_attempt(fault, told, frame, back, ahead),
            Aim::Forward { closed, tokens } if matches!(told.place, Spot::State(_)) => {
                let start = Start::Pair { good: frame.good, faulty: frame.faulty };
                self.tree.begin(Some(fault), FORWARD_FRAMES, start);
                (FORWARD_FRAMES, *closed, tokens)
            }
            Aim::Back { closed, tokens } if wants(&frame.cube) => {
                self.tree.begin(None, 1, Start::Back { cube: frame.cube, limit: BACK_LIMIT });
                (1, *closed, tokens)
            }
            _ => return false,
        };
        if closed { self.tree.judge(tokens) == Some(true) } else { self.is_spent(unit, tokens) }
    }

    fn is_attempt(
        &mut self,
        fault: Fault,
        told: &Told,
        frame: ToldFrame,
        back: &[Vec<bool>],
        ahead: &[Vec<bool>],
    ) -> bool {
        let inputs = self.circuit.inputs;
        if back.iter().chain(ahead).any(|vector| vector.len() != inputs) || back.len() > BACK_LIMIT as usize {
            return false;
        }
        let mut state = vec![Unknown; self.circuit.dffs()];
        for vector in back {
            let mut faulty = state.clone();
            step_both(&mut self.group, fault, vector, &mut state, &mut faulty);
        }
        let fits = |(wanted, held): (&Value, &Value)| *wanted == Unknown || wanted == held;
        let reaches = frame.cube.iter().zip(&state).all(fits);
        let goes = match told.place {
            Spot::Output(_) => ahead.is_empty(),
            Spot::State(_) => ahead.len() <= FORWARD_FRAMES && self.shows_last(fault, &frame, ahead),
        };
        let list = back.iter().chain([&frame.vector]).chain(ahead);
        reaches && goes && !detects(&mut self.group, fault, list)
    }

    /// Whether the last of some vectors shows a difference from the states after a told frame.
    fn shows_last(&mut self, fault: Fault, frame: &ToldFrame, ahead: &[Vec<bool>]) -> bool {
        let (mut good, mut faulty, mut shown) = (frame.good.clone(), frame.faulty.clone(), false);
        for vector in ahead {
            shown = step_both(&mut self.group, fault, vector, &mut good, &mut faulty);
        }
        shown
    }

    fn is_sweep(&mut self, fault: Fault, walks: &[Vec<Token>]) -> bool {
        let weight = walks.iter().enumerate().map(|(k, tokens)| (k + 1) * tokens.len()).sum();
        if !fills(self.budget, weight, walks.len()) {
            return false;
        }
        walks.iter().enumerate().all(|(k, tokens)| {
            self.tree.begin(Some(fault), k + 1, Start::Unknown);
            self.tree.judge(tokens) == Some(k + 1 < walks.len())
        })
    }
}

impl Window<'_> {
    /// Whether a frame is told at its place by its decisions.
    fn tells(&mut self, told: &Told) -> bool {
        for (var, bit) in &told.sets {
            if !self.may_decide(Choice::Two { var: *var, first: *bit }) {
                return false;
            }
            self.decide(*var, Value::of(*bit));
        }
        self.refresh();
        let set = match told.place {
            Spot::Output(o) => self.circuit().outputs.get(o as usize).map(|net| self.cell(0, *net)),
            Spot::State(j) => self.outside(j as usize).then(|| self.next_state(0, j as usize)),
        };
        set.is_some_and(sets::must_differ)
    }

    /// Whether a flip-flop is one outside those of a one-frame window.
    fn outside(&self, j: usize) -> bool {
        matches!(&self.start, Start::OneFrame { z } if z.get(j) == Some(&false))
    }
}
