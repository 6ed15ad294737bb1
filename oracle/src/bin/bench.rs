//! Times the library and the crate in one run on the same replicas and prints a table.

use crdts::orswot::Op;
use crdts::{CmRDT, CvRDT, Dot, ResetRemove, VClock};
use oracle::calls::{Call, Name};
use oracle::crdts_answers::{to_set, Set};
use oracle::gatelichen;
use oracle::image::{decode, decode_clock, Clock, Replica, LONGEST};
use oracle::image::{encode_clock, encode_dots};
use std::hint::black_box;
use std::time::Instant;

/// A replica whose clock has every actor at 1000: every member with a dot of its own of every actor, and waiting removes of 32
/// members, the even ones, on a dot that no replica here has seen and on older dots with counters up to `low`. Odd members have their
/// dots moved up by `odd`, even ones by `even`.
fn replica(members: u32, actors: u32, waiting: u64, low: u64, even: u64, odd: u64) -> Replica {
    let mut r = Replica { clock: (0..actors).map(|a| (a, 1000)).collect(), ..Default::default() };
    for member in 0..members {
        let counter = 10 + member as u64 + if member % 2 == 0 { even } else { odd };
        r.entries.insert(member, (0..actors).map(|a| (a, counter)).collect());
    }
    for i in 0..waiting {
        let low = (1..actors).map(|a| (a, low));
        r.waiting.insert(low.chain([(99, 10 + i)]).collect::<Clock>(), (0..32).map(|m| 2 * m).collect());
    }
    r
}

/// Nanoseconds for one call: the least of nine rounds. `ready` makes what a call uses up and isn't timed.
fn nanoseconds<T, R>(ready: impl Fn() -> T, mut call: impl FnMut(T) -> R) -> f64 {
    let mut least = f64::MAX;
    for _ in 0..9 {
        let (mut spent, mut calls) = (0, 0);
        while spent < 3_000_000 {
            let inputs: Vec<T> = (0..32).map(|_| ready()).collect();
            let mut outputs = Vec::with_capacity(32);
            let start = Instant::now();
            for input in inputs {
                outputs.push(black_box(call(black_box(input))));
            }
            spent += start.elapsed().as_nanos();
            calls += 32;
        }
        least = least.min(spent as f64 / calls as f64);
    }
    least
}

/// What the crate needs beside its set to do a call.
#[derive(Clone)]
struct Given {
    op: Option<Op<u32, u32>>,
    other: Option<Set>,
    clock: VClock<u32>,
    member: u32,
}

/// The call at the crate.
fn work(name: Name, set: &mut Set, given: Given) {
    match name {
        Name::Add | Name::Remove => set.apply(given.op.unwrap()),
        Name::Merge => set.merge(given.other.unwrap()),
        Name::Reset => set.reset_remove(&given.clock),
        Name::Contains => drop(black_box(set.contains(&given.member))),
        Name::Read => drop(black_box(set.read())),
        _ => drop(black_box(set.validate_merge(given.other.as_ref().unwrap()))),
    }
}

/// One row of the table.
fn row(label: &str, call: Call) {
    let mut out = vec![0; LONGEST];
    let result = gatelichen::run_call(&call, &mut out);
    assert_eq!(result.number, 0, "{label} is granted");
    let library = nanoseconds(|| (), |()| gatelichen::run_call(&call, &mut out));

    let set = to_set(&decode(&call.image).unwrap());
    let other = decode(&call.other).map(|r| to_set(&r));
    let clock = VClock { dots: decode_clock(&call.other).unwrap_or_default() };
    let op = match call.name {
        Name::Add => Some(Op::Add { dot: Dot::new(call.number, call.counter), members: call.members.clone() }),
        Name::Remove => Some(Op::Rm { clock: clock.clone(), members: call.members.clone() }),
        _ => None,
    };
    let given = Given { op, other, clock, member: call.number };
    let memory = nanoseconds(
        || (set.clone(), given.clone()),
        |(mut set, given)| {
            work(call.name, &mut set, given);
            set
        },
    );

    let stored = bincode::serialize(&set).unwrap();
    let stored_other = given.other.as_ref().map(|other| bincode::serialize(other).unwrap());
    let changes = matches!(call.name, Name::Add | Name::Remove | Name::Merge | Name::Reset);
    let around = nanoseconds(
        || Given { other: None, ..given.clone() },
        |mut given| {
            let mut set: Set = bincode::deserialize(&stored).unwrap();
            given.other = stored_other.as_ref().map(|bytes| bincode::deserialize(bytes).unwrap());
            work(call.name, &mut set, given);
            changes.then(|| bincode::serialize(&set).unwrap())
        },
    );

    let written = if changes { result.length as usize } else { 0 };
    let source = vec![0; written];
    let floor = nanoseconds(|| (), |()| {
        out[..written].copy_from_slice(black_box(&source));
        let second = if stored_other.is_some() { gatelichen::check(&call.other).number } else { 0 };
        gatelichen::check(&call.image).number + second
    });
    let (by_memory, by_stored) = (memory / library, around / library);
    println!("{label:22} {library:8.0} {floor:8.0} {memory:8.0} {around:8.0} {by_memory:9.2} {by_stored:9.2}");
}

fn main() {
    println!("nanoseconds a call, the least of nine rounds; a ratio over 1 says that the library is quicker");
    println!("floor: the library checks the inputs and the result's bytes are copied, nothing else");
    println!("memory: the crate on sets already in memory; stored: the crate, decoding its inputs and encoding its result (bincode)\n");
    println!("{:22} {:>8} {:>8} {:>8} {:>8} {:>9} {:>9}", "", "library", "floor", "memory", "stored", "memory/l", "stored/l");
    let sizes = [("small", 4, 2, 0, 1, 0), ("medium", 16, 4, 0, 1, 0), ("full", 64, 16, 16, 1, 0), ("crossed", 64, 16, 16, 200, 300)];
    for (size, members, actors, waiting, low, even) in sizes {
        let ours = replica(members, actors, waiting, low, even, 0);
        let theirs = replica(members, actors, waiting, low, even, 64);
        let (image, other) = (ours.encode(), theirs.encode());
        let all: Vec<u32> = (0..members).cycle().take(64).collect();
        let row = |label: &str, call: Call| row(&format!("{size} {label}"), call);
        row("merge", Call::new(Name::Merge, &image, &other));
        row("add of 1", Call::new(Name::Add, &image, &[]).dot(0, 1001).members(&[1]));
        row("add of 64", Call::new(Name::Add, &image, &[]).dot(0, 1001).members(&all));
        row("remove", Call::new(Name::Remove, &image, &encode_clock(&ours.entries[&1])).members(&[1]));
        row("contains", Call::new(Name::Contains, &image, &[]).member(members - 1));
        row("read", Call::new(Name::Read, &image, &[]));
        row("reset", Call::new(Name::Reset, &image, &encode_dots(&[(0, 30)])));
        row("validate_merge", Call::new(Name::ValidateMerge, &image, &other));
    }
}
