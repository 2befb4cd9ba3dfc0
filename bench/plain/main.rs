//! Fault simulation, test generation and the checking of its files in plain Rust, to be timed beside the program
//! `ht_cli` on the same files.
//!
//! The commands do the work of those of `ht_cli` by the same methods, and write the same files: faulty machines are
//! simulated 64 to a word and by events, windows are changed in place by events and by a trail. What a step of the
//! generator adds to a file is written before the next step begins. A netlist is read in normal text. It and the tests
//! of `sim` have to be ones that `ht_cli` accepts: they aren't judged here.
mod breed;
mod causes;
mod circuit;
mod clauses;
mod compact;
mod families;
mod faults;
mod grading;
mod guide;
mod judge;
mod lanes;
mod parse;
mod random;
mod relevant;
mod respond;
mod search;
mod sets;
mod stems;
mod sync;
mod texts;
mod uninit;
mod windows;
mod words;
mod work;

use breed::Breeder;
use causes::Watcher;
use circuit::{Circuit, Order};
use families::Families;
use faults::FaultList;
use grading::{Grader, Place};
use random::Words;
use respond::Machine;
use std::error::Error;
use std::fs::{self, File};
use std::io::{BufWriter, Write};
use std::{env, process};
use texts::Said;
use windows::{Fill, Plan};
use words::Value;
use work::{Entry, Work, Worker};

const USAGE: &str = "usage: sim NETLIST TESTS REPORT, gen NETLIST TESTS REPORT PROOFS BUDGET RANDOM SEED, \
                     check NETLIST TESTS REPORT PROOFS, uninit NETLIST OUT BUDGET, \
                     sync NETLIST TESTS OUT BUDGET, close NETLIST, \
                     respond NETLIST TESTS OUT FAULT, causes NETLIST TESTS OUT, breed NETLIST TESTS OUT VECTORS SEED [START], \
                     compact NETLIST TESTS OUT RUNS";

/// The circuit of a netlist. `PLAIN_ORDER` says in which order its gates have their places: `lines`, `level` or `kind`.
fn read_circuit(name: &str) -> Result<Circuit, Box<dyn Error>> {
    let order = match env::var("PLAIN_ORDER").as_deref() {
        Ok("lines") => Order::Lines,
        Ok("level") => Order::Level,
        _ => Order::Kind,
    };
    Circuit::read(&fs::read_to_string(name)?, order)
}

/// How windows get their sets: by events, but where `PLAIN_FILL` says `whole` or `anew`.
fn plan(circuit: &Circuit) -> Plan<'_> {
    let fill = match env::var("PLAIN_FILL").as_deref() {
        Ok("whole") => Fill::Whole,
        Ok("anew") => Fill::Anew,
        _ => Fill::Events,
    };
    Plan::new(circuit, fill)
}

/// A grader of the representatives.
fn grader<'c>(circuit: &'c Circuit, list: &FaultList) -> Grader<'c> {
    Grader::new(circuit, list.own().into_iter().map(|i| list.faults[i as usize]).collect())
}

fn said_of(verdict: Option<Place>, otherwise: Said) -> Said {
    verdict.map_or(otherwise, Said::Detected)
}

fn sim(netlist: &str, tests: &str, report: &str) -> Result<(), Box<dyn Error>> {
    let circuit = read_circuit(netlist)?;
    let vectors = judge::read_tests(&circuit, &fs::read(tests)?)?;
    let list = FaultList::of(&circuit);
    let mut grader = grader(&circuit, &list);
    for bits in &vectors {
        grader.apply(bits);
    }
    let said: Vec<Said> = grader.verdicts.iter().map(|verdict| said_of(*verdict, Said::Undetected)).collect();
    texts::write_report(&circuit, &list, &said, None, &mut BufWriter::new(File::create(report)?))?;
    eprintln!("gate evaluations {}", grader.group.evaluations);
    Ok(())
}

/// Why the vectors don't detect faults.
fn causes(netlist: &str, tests: &str, report: &str) -> Result<(), Box<dyn Error>> {
    let circuit = read_circuit(netlist)?;
    let vectors = judge::read_tests(&circuit, &fs::read(tests)?)?;
    let list = FaultList::of(&circuit);
    let mut watcher = Watcher::new(&circuit, list.own().into_iter().map(|i| list.faults[i as usize]).collect());
    for bits in &vectors {
        watcher.apply(bits);
    }
    causes::write_report(&circuit, &list, &watcher.seen, &mut BufWriter::new(File::create(report)?))?;
    Ok(())
}

/// The tests of a run that are written, and what they say.
struct Tests<'c> {
    grader: Grader<'c>,
    text: BufWriter<File>,
}

impl Tests<'_> {
    fn add(&mut self, vector: &[bool]) -> Result<(), Box<dyn Error>> {
        writeln!(self.text, "{}", texts::bits(vector))?;
        self.grader.apply(vector);
        Ok(())
    }
}

fn generate(names: [&str; 4], budget: usize, random: usize, seed: u64) -> Result<(), Box<dyn Error>> {
    let circuit = read_circuit(names[0])?;
    let list = FaultList::of(&circuit);
    let plan = plan(&circuit);
    let mut tests = Tests { grader: grader(&circuit, &list), text: BufWriter::new(File::create(names[1])?) };
    let report = File::create(names[2])?;
    let mut proofs = BufWriter::new(File::create(names[3])?);
    writeln!(proofs, "{}", texts::HEAD)?;
    let mut words = Words::from_seed(seed);
    for _ in 0..random {
        tests.add(&words.vector(circuit.inputs))?;
    }
    tests.text.flush()?;
    let mut worker = Worker::new(&plan, budget);
    let own = list.own();
    let mut otherwise = vec![Said::Undetected; own.len()];
    for (k, i) in own.iter().enumerate() {
        if tests.grader.verdicts[k].is_some() {
            continue;
        }
        match worker.work_on(list.faults[*i as usize]) {
            Work::List(vectors) => {
                vectors.iter().try_for_each(|vector| tests.add(vector))?;
                tests.text.flush()?;
            },
            Work::Entry(entry) => {
                texts::write_entry(i + 1, &entry, &mut proofs)?;
                proofs.flush()?;
                otherwise[k] = if let Entry::Aborted { .. } = entry { Said::Aborted } else { Said::Untestable };
            }
        }
    }
    writeln!(proofs, "{}", texts::END)?;
    proofs.flush()?;
    let said = tests.grader.verdicts.iter().zip(otherwise).map(|(verdict, otherwise)| said_of(*verdict, otherwise));
    let said: Vec<Said> = said.collect();
    eprintln!("cells evaluated {}", plan.evaluations.get());
    Ok(texts::write_report(&circuit, &list, &said, Some(budget), &mut BufWriter::new(report))?)
}

/// The first trouble of some files, if there is one.
fn check(names: [&str; 4]) -> Result<Result<(), String>, Box<dyn Error>> {
    let circuit = read_circuit(names[0])?;
    let list = FaultList::of(&circuit);
    let vectors = match judge::read_tests(&circuit, &fs::read(names[1])?) {
        Ok(vectors) => vectors,
        Err(trouble) => return Ok(Err(trouble)),
    };
    let mut grader = grader(&circuit, &list);
    for bits in &vectors {
        grader.apply(bits);
    }
    let (budget, said) = match judge::read_report(&circuit, &list, &grader.verdicts, &fs::read(names[2])?) {
        Ok(read) => read,
        Err(trouble) => return Ok(Err(trouble)),
    };
    let plan = plan(&circuit);
    Ok(judge::Judge::new(&plan, budget).judge(&list, &said, &fs::read(names[3])?))
}

fn uninit(netlist: &str, out: &str, budget: usize) -> Result<(), Box<dyn Error>> {
    let circuit = read_circuit(netlist)?;
    let list = FaultList::of(&circuit);
    let plan = plan(&circuit);
    let record = uninit::uninit(&plan, budget);
    Ok(record.write(&circuit, &list, &mut BufWriter::new(File::create(out)?))?)
}

fn synchronize(netlist: &str, tests: &str, out: &str, budget: usize) -> Result<(), Box<dyn Error>> {
    let circuit = read_circuit(netlist)?;
    let plan = plan(&circuit);
    let record = sync::sync(&plan, budget);
    let mut tests = BufWriter::new(File::create(tests)?);
    Ok(record.write(&plan, &mut tests, &mut BufWriter::new(File::create(out)?))?)
}

/// How many listed faults have a family that closes from all-unknown, and how many pairs their families hold.
fn close(netlist: &str) -> Result<(), Box<dyn Error>> {
    let circuit = read_circuit(netlist)?;
    let list = FaultList::of(&circuit);
    let start = vec![Value::Unknown; circuit.dffs()];
    let mut families = Families::new(&circuit);
    let (mut closed, mut pairs) = (0, 0);
    for fault in list.faults {
        if let Some(family) = families.closing(fault, &start) {
            closed += 1;
            pairs += family.iter().map(|set| set.count_ones()).sum::<u32>();
        }
    }
    println!("closed {closed} pairs {pairs}");
    Ok(())
}

/// What the good machine shows, or for a number other than 0 the one with that fault.
fn respond(netlist: &str, tests: &str, out: &str, number: usize) -> Result<(), Box<dyn Error>> {
    let circuit = read_circuit(netlist)?;
    let fault = match number {
        0 => None,
        _ => Some(*FaultList::of(&circuit).faults.get(number - 1).ok_or("no such fault")?),
    };
    let vectors = judge::read_tests(&circuit, &fs::read(tests)?)?;
    let mut machine = Machine::new(&circuit, fault);
    let mut text = BufWriter::new(File::create(out)?);
    for bits in &vectors {
        machine.step(bits);
        machine.write_row(&mut text)?;
    }
    text.flush()?;
    println!("responses vectors {} outputs {}", vectors.len(), circuit.outputs.len());
    Ok(())
}

/// The vectors of some tests, and then at most `most` bred ones. `PLAIN_BURSTS` has each burst told on standard error: how
/// many vectors it has, and how many representatives are detected.
fn breed(names: [&str; 3], start: Option<&str>, most: usize, seed: u64) -> Result<(), Box<dyn Error>> {
    let circuit = read_circuit(names[0])?;
    let given = judge::read_tests(&circuit, &fs::read(names[1])?)?;
    let list = FaultList::of(&circuit);
    let own: Vec<_> = list.own().into_iter().map(|i| list.faults[i as usize]).collect();
    let mut grader = Grader::new(&circuit, own.clone());
    if let Some(name) = start {
        grader.latches = judge::read_start(&fs::read(name)?);
    }
    let mut breeder = Breeder::new(&circuit, &own, seed);
    let mut text = BufWriter::new(File::create(names[2])?);
    breeder.take_in(&mut grader, &given);
    for vector in &given {
        writeln!(text, "{}", texts::bits(vector))?;
    }
    let mut bred = 0;
    while bred < most && circuit.inputs > 0 && !grader.live.is_empty() {
        let burst = breeder.burst(&mut grader, most - bred);
        bred += burst.len();
        for vector in &burst {
            writeln!(text, "{}", texts::bits(vector))?;
        }
        if env::var_os("PLAIN_BURSTS").is_some() {
            eprintln!("burst {} detected {}", burst.len(), own.len() - grader.live.len());
        }
    }
    text.flush()?;
    println!("vectors {} bred {bred} detected {} of {}", given.len(), own.len() - grader.live.len(), own.len());
    Ok(())
}

/// The vectors of some tests that are kept where runs of at most so many are left out.
fn compact(names: [&str; 3], most: usize) -> Result<(), Box<dyn Error>> {
    let circuit = read_circuit(names[0])?;
    let vectors = judge::read_tests(&circuit, &fs::read(names[1])?)?;
    let list = FaultList::of(&circuit);
    let own: Vec<_> = list.own().into_iter().map(|i| list.faults[i as usize]).collect();
    let kept = compact::compact(&circuit, &own, &vectors, most);
    let text: String = kept.iter().map(|vector| texts::bits(vector) + "\n").collect();
    fs::write(names[2], text)?;
    println!("vectors {} kept {}", vectors.len(), kept.len());
    Ok(())
}

fn run(words: &[&str]) -> Result<i32, Box<dyn Error>> {
    match *words {
        ["sim", netlist, tests, report] => sim(netlist, tests, report).map(|()| 0),
        ["gen", netlist, tests, report, proofs, budget, random, seed] => {
            let names = [netlist, tests, report, proofs];
            generate(names, budget.parse()?, random.parse()?, seed.parse()?).map(|()| 0)
        }
        ["check", netlist, tests, report, proofs] => match check([netlist, tests, report, proofs])? {
            Ok(()) => {
                println!("valid");
                Ok(0)
            }
            Err(trouble) => {
                eprintln!("denied: {trouble}");
                Ok(1)
            }
        },
        ["causes", netlist, tests, report] => causes(netlist, tests, report).map(|()| 0),
        ["uninit", netlist, out, budget] => uninit(netlist, out, budget.parse()?).map(|()| 0),
        ["sync", netlist, tests, out, budget] => synchronize(netlist, tests, out, budget.parse()?).map(|()| 0),
        ["respond", netlist, tests, out, number] => respond(netlist, tests, out, number.parse()?).map(|()| 0),
        ["breed", netlist, tests, out, most, seed, ref start @ ..] if start.len() < 2 => {
            breed([netlist, tests, out], start.first().copied(), most.parse()?, seed.parse()?).map(|()| 0)
        }
        ["compact", netlist, tests, out, most] => compact([netlist, tests, out], most.parse()?).map(|()| 0),
        ["close", netlist] => close(netlist).map(|()| 0),
        _ => Err(USAGE.into()),
    }
}

fn main() {
    let words: Vec<String> = env::args().skip(1).collect();
    let words: Vec<&str> = words.iter().map(String::as_str).collect();
    match run(&words) {
        Ok(status) => process::exit(status),
        Err(error) => {
            eprintln!("plain: {error}");
            process::exit(2);
        }
    }
}
