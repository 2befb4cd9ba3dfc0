// Times `lift` of ht_pairs, by its export of ht_exports, beside the same in plain Rust, in one run.
//
// First both are compared with the definition, a loop over all members, at every two sets.
use std::hint::black_box;
use std::time::Instant;

#[derive(Clone, Copy, PartialEq, Eq, Debug)]
#[repr(C)]
struct PairSet {
    bits: u16,
}

#[link(name = "ht_exports", kind = "static")]
unsafe extern "C" {
    fn ht_pairs_lift(kind: u8, args: *const PairSet, count: usize) -> PairSet;
}

#[derive(Clone, Copy)]
enum Kind {
    And,
    Nand,
    Or,
    Nor,
    Xor,
    Xnor,
}

const KINDS: [(&str, Kind); 6] = [
    ("AND", Kind::And),
    ("NAND", Kind::Nand),
    ("OR", Kind::Or),
    ("NOR", Kind::Nor),
    ("XOR", Kind::Xor),
    ("XNOR", Kind::Xnor),
];

#[derive(Clone, Copy)]
enum Half {
    Good,
    Faulty,
}

use Half::{Faulty, Good};

impl Half {
    fn zeros(self) -> u16 {
        match self {
            Good => 0b000_000_111,
            Faulty => 0b001_001_001,
        }
    }

    fn step(self) -> u32 {
        match self {
            Good => 3,
            Faulty => 1,
        }
    }
}

fn lowered(set: u16, half: Half) -> u16 {
    let (zeros, step) = (half.zeros(), half.step());
    let with_unknowns = set | (set & (zeros << step)) << step;
    with_unknowns | (with_unknowns & (zeros << (2 * step))) >> (2 * step)
}

fn raised(set: u16, half: Half) -> u16 {
    let (zeros, step) = (half.zeros(), half.step());
    let with_unknowns = set | (set & zeros) << (2 * step);
    with_unknowns | (with_unknowns & (zeros << (2 * step))) >> step
}

fn blurred(set: u16, half: Half) -> u16 {
    let (zeros, step) = (half.zeros(), half.step());
    set | (set << step | set << (2 * step)) & (zeros << (2 * step))
}

fn complemented(set: u16, half: Half) -> u16 {
    let (zeros, step) = (half.zeros(), half.step());
    (set & zeros) << step | (set & (zeros << step)) >> step | set & (zeros << (2 * step))
}

fn passed(set: u16, half: Half) -> u16 {
    let (zeros, step) = (half.zeros(), half.step());
    let passing = set & zeros;
    passing | passing << step | set & (zeros << (2 * step))
}

fn inverted(set: u16, half: Half) -> u16 {
    let (zeros, step) = (half.zeros(), half.step());
    let inverting = set & (zeros << step);
    inverting | inverting >> step | (set | set << step | set << (2 * step)) & (zeros << (2 * step))
}

fn met(s: u16, t: u16, moved: fn(u16, Half) -> u16) -> u16 {
    let (s_faulty, t_faulty) = (moved(s, Faulty), moved(t, Faulty));
    s & moved(t_faulty, Good) | moved(s_faulty, Good) & t | s_faulty & moved(t, Good) | moved(s, Good) & t_faulty
}

fn parity(s: u16, t: u16) -> u16 {
    let (s_passed, s_inverted) = (passed(s, Faulty), inverted(s, Faulty));
    let (t_blurred, t_complemented) = (blurred(t, Faulty), complemented(t, Faulty));
    passed(s_passed, Good) & blurred(t_blurred, Good)
        | passed(s_inverted, Good) & blurred(t_complemented, Good)
        | inverted(s_passed, Good) & complemented(t_blurred, Good)
        | inverted(s_inverted, Good) & complemented(t_complemented, Good)
}

/// The plain version: the same moves, as rustc builds them.
#[inline(never)]
fn plain_lift(kind: Kind, args: &[PairSet]) -> PairSet {
    let mut set = args[0].bits;
    for arg in &args[1..] {
        set = match kind {
            Kind::And | Kind::Nand => met(set, arg.bits, lowered),
            Kind::Or | Kind::Nor => met(set, arg.bits, raised),
            Kind::Xor | Kind::Xnor => parity(set, arg.bits),
        };
    }
    let bits = match kind {
        Kind::And | Kind::Or | Kind::Xor => set,
        Kind::Nand | Kind::Nor | Kind::Xnor => complemented(complemented(set, Faulty), Good),
    };
    PairSet { bits }
}

fn lift(kind: Kind, args: &[PairSet]) -> PairSet {
    // The library asks for at least one argument, and for sets of one to nine pairs.
    unsafe { ht_pairs_lift(kind as u8, args.as_ptr(), args.len()) }
}

/// The value of a gate of two arguments, where 0, 1 and 2 stand for 0, 1 and X.
fn value(kind: Kind, a: u16, b: u16) -> u16 {
    let value = match kind {
        Kind::And | Kind::Nand if a == 0 || b == 0 => 0,
        Kind::Or | Kind::Nor if a == 1 || b == 1 => 1,
        _ if a == 2 || b == 2 => 2,
        Kind::And | Kind::Nand => a & b,
        Kind::Or | Kind::Nor => a | b,
        Kind::Xor | Kind::Xnor => a ^ b,
    };
    match kind {
        Kind::Nand | Kind::Nor | Kind::Xnor if value < 2 => 1 - value,
        _ => value,
    }
}

/// The definition: the gate's value at each two members.
fn defined_lift(kind: Kind, s: u16, t: u16) -> PairSet {
    let members = |set: u16| (0..9u16).filter(move |p| set >> p & 1 == 1);
    let mut bits = 0;
    for p in members(s) {
        for q in members(t) {
            bits |= 1 << (3 * value(kind, p / 3, q / 3) + value(kind, p % 3, q % 3));
        }
    }
    PairSet { bits }
}

fn compare() {
    for (name, kind) in KINDS {
        for s in 1..512 {
            for t in 1..512 {
                let args = [PairSet { bits: s }, PairSet { bits: t }];
                let want = defined_lift(kind, s, t);
                assert_eq!(lift(kind, &args), want, "{name} {s} {t}");
                assert_eq!(plain_lift(kind, &args), want, "{name} {s} {t}, plain");
            }
        }
    }
    println!("both agree with the definition at every two sets");
}

/// Nanoseconds for a call, over groups of arguments that lie in a row.
fn time(run: fn(Kind, &[PairSet]) -> PairSet, kind: Kind, sets: &[PairSet], count: usize) -> f64 {
    const ROUNDS: usize = 100;
    let start = Instant::now();
    for _ in 0..ROUNDS {
        for args in sets.chunks_exact(count) {
            black_box(run(black_box(kind), args));
        }
    }
    start.elapsed().as_nanos() as f64 / (ROUNDS * (sets.len() / count)) as f64
}

fn main() {
    compare();
    let common = [1u16, 16, 256, 17, 27, 273, 2, 8, 64, 4, 128, 32, 511, 19];
    let mut seed = 12_345u32;
    let sets: Vec<PairSet> = (0..4096)
        .map(|_| {
            seed = seed.wrapping_mul(1_664_525).wrapping_add(1_013_904_223);
            PairSet { bits: common[(seed >> 16) as usize % common.len()] }
        })
        .collect();
    println!("kind  arguments   ht_pairs  plain Rust  ratio");
    for count in [2, 8] {
        for (name, kind) in KINDS {
            // The best of many tries, taken in turn, so that other work on the machine counts for neither.
            let (mut ours, mut plain) = (f64::MAX, f64::MAX);
            for _ in 0..40 {
                ours = ours.min(time(lift, kind, &sets, count));
                plain = plain.min(time(plain_lift, kind, &sets, count));
            }
            println!("{name:5} {count:9} {ours:7.2} ns  {plain:7.2} ns {:6.2}", ours / plain);
        }
    }
}
