//! Tests, reports and proofs, as they are written.
use crate::circuit::Circuit;
use crate::faults::{FaultList, SiteText};
use crate::grading::Place;
use crate::guide::Choice;
use crate::search::Token;
use crate::windows::Spot;
use crate::work::{Aim, Entry, Told};
use std::io::{self, Write};

pub const HEAD: &str = "proofs 2";
pub const END: &str = "end";

/// What a report says of a representative.
#[derive(Clone, Copy, PartialEq, Eq)]
pub enum Said {
    Detected(Place),
    Undetected,
    Untestable,
    Aborted,
}

impl Said {
    pub fn text(self, circuit: &Circuit) -> String {
        match self {
            Said::Detected(place) => {
                let net = circuit.outputs[place.output] as usize;
                format!("detected {} {}", place.vector + 1, circuit.names[net])
            }
            Said::Undetected => "undetected".into(),
            Said::Untestable => "untestable".into(),
            Said::Aborted => "aborted".into(),
        }
    }
}

/// The first line of a report, without a budget.
pub fn head(circuit: &Circuit, list: &FaultList) -> String {
    format!(
        "circuit inputs {} outputs {} flip-flops {} gates {} faults {} classes {}",
        circuit.inputs,
        circuit.outputs.len(),
        circuit.dffs(),
        circuit.gates(),
        list.faults.len(),
        list.own().len(),
    )
}

/// The last line of a report; that of a search has two counts more.
pub fn total(said: &[Said], is_search: bool) -> String {
    let count = |wanted: Said| said.iter().filter(|said| **said == wanted).count();
    let (untestable, aborted) = (count(Said::Untestable), count(Said::Aborted));
    let detected = said.iter().filter(|said| matches!(said, Said::Detected(_))).count();
    let more = if is_search { format!(" untestable {untestable} aborted {aborted}") } else { String::new() };
    format!("total {} detected {detected}{more}", said.len())
}

/// A report says of the representatives, in their order, what is given.
pub fn write_report(
    circuit: &Circuit,
    list: &FaultList,
    said: &[Said],
    budget: Option<usize>,
    report: &mut impl Write,
) -> io::Result<()> {
    let budget_text = budget.map_or(String::new(), |budget| format!(" budget {budget}"));
    writeln!(report, "{}{budget_text}", head(circuit, list))?;
    let mut verdicts = said.iter();
    for (i, fault) in list.faults.iter().enumerate() {
        let bit = u8::from(fault.bit);
        write!(report, "{} {} s-a-{bit} ", i + 1, SiteText(circuit, fault.site))?;
        let representative = list.representatives[i];
        if representative as usize != i {
            writeln!(report, "as {}", representative + 1)?;
        } else if let Some(said) = verdicts.next() {
            writeln!(report, "{}", said.text(circuit))?;
        }
    }
    let total = total(said, budget.is_some());
    writeln!(report, "{total}")?;
    report.flush()?;
    println!("{total}");
    Ok(())
}

pub fn bits(vector: &[bool]) -> String {
    vector.iter().map(|bit| if *bit { '1' } else { '0' }).collect()
}

pub fn write_tokens(tokens: &[Token], proofs: &mut impl Write) -> io::Result<()> {
    for token in tokens {
        match token {
            Token::Decide(Choice::Two { var, first: false }) => writeln!(proofs, "lo {}", var + 1)?,
            Token::Decide(Choice::Two { var, first: true }) => writeln!(proofs, "hi {}", var + 1)?,
            Token::Decide(Choice::Three { var }) => writeln!(proofs, "x {}", var + 1)?,
            Token::Dead => proofs.write_all(b"dead\n")?,
            Token::Before => proofs.write_all(b"before\n")?,
        }
    }
    Ok(())
}

fn write_vectors(word: &str, vectors: &[Vec<bool>], proofs: &mut impl Write) -> io::Result<()> {
    for vector in vectors {
        let text = if vector.is_empty() { "-".into() } else { bits(vector) };
        writeln!(proofs, "{word} {text}")?;
    }
    Ok(())
}

fn write_told(told: &Told, proofs: &mut impl Write) -> io::Result<()> {
    match told.place {
        Spot::Output(o) => writeln!(proofs, "frame output {}", o + 1)?,
        Spot::State(j) => writeln!(proofs, "frame state {}", j + 1)?,
    }
    for (var, bit) in &told.sets {
        writeln!(proofs, "set {} {}", var + 1, u8::from(*bit))?;
    }
    Ok(())
}

fn write_aim(aim: &Aim, proofs: &mut impl Write) -> io::Result<()> {
    let word = |closed: bool| if closed { "closed" } else { "open" };
    match aim {
        Aim::Forward { closed, tokens } => {
            writeln!(proofs, "forward {}", word(*closed))?;
            write_tokens(tokens, proofs)
        }
        Aim::Back { closed, tokens } => {
            writeln!(proofs, "back {}", word(*closed))?;
            write_tokens(tokens, proofs)
        }
        Aim::Attempt { back, ahead } => {
            writeln!(proofs, "attempt")?;
            write_vectors("justify", back, proofs)?;
            write_vectors("ahead", ahead, proofs)
        }
    }
}

fn write_refutation(z: &[u32], tokens: &[Token], proofs: &mut impl Write) -> io::Result<()> {
    for j in z {
        writeln!(proofs, "z {}", j + 1)?;
    }
    writeln!(proofs, "walk")?;
    write_tokens(tokens, proofs)
}

/// The lines of an entry; the fault counts from 1.
pub fn write_entry(number: u32, entry: &Entry, proofs: &mut impl Write) -> io::Result<()> {
    match entry {
        Entry::Untestable { z, tokens } => {
            writeln!(proofs, "entry {number} untestable")?;
            write_refutation(z, tokens, proofs)
        }
        Entry::UntestableFrom { state, clauses, z, tokens } => {
            writeln!(proofs, "entry {number} untestable from {}", bits(state))?;
            for clause in clauses {
                write!(proofs, "clause")?;
                clause.literals.iter().try_for_each(|(j, bit)| write!(proofs, " {} {}", j + 1, u8::from(*bit)))?;
                writeln!(proofs)?;
                write_tokens(&clause.tokens, proofs)?;
            }
            write_refutation(z, tokens, proofs)
        }
        Entry::Aborted { told, walk, aim, sweep } => {
            writeln!(proofs, "entry {number} aborted")?;
            for told in told {
                write_told(told, proofs)?;
            }
            if let Some(tokens) = walk {
                writeln!(proofs, "walk")?;
                write_tokens(tokens, proofs)?;
            }
            if let Some(aim) = aim {
                write_aim(aim, proofs)?;
            }
            writeln!(proofs, "sweep")?;
            for (k, tokens) in sweep.iter().enumerate() {
                writeln!(proofs, "length {}", k + 1)?;
                write_tokens(tokens, proofs)?;
            }
            Ok(())
        }
    }
}
