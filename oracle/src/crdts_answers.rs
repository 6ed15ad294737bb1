//! What a call must answer: the crate does the work on the replica, the table of docs/RULES.md, 2, gives the refusals, and where the
//! two differ as docs/DIFFERENCES.md says, the difference is checked to be that one and counted under its name.

use crate::calls::{Answer, Call, Name};
use crate::image::{self, decode, decode_clock, Clock, Replica, LIST};
use crdts::orswot::{Op, Validation};
use crdts::{CmRDT, CvRDT, Dot, DotRange, Orswot, ResetRemove, VClock};
use std::collections::{BTreeMap, BTreeSet};

pub type Set = Orswot<u32, u32>;

/// How often each difference of docs/DIFFERENCES.md was met.
#[derive(Default)]
pub struct Differences(pub BTreeMap<&'static str, u64>);

impl Differences {
    fn count(&mut self, name: &'static str) {
        *self.0.entry(name).or_default() += 1;
    }
}

pub const EQUAL_AFTER_RESET: &str = "equal waiting removes after a reset";
pub const LARGEST_COUNTER: &str = "the largest counter, `validate_op`";
pub const ORDER_OF_VALIDATE: &str = "the order of `validate_merge`";
pub const ORDER_OF_ITERATION: &str = "the order of iteration";
pub const ZERO_COUNTERS: &str = "zero counters";
pub const LIMITS: &str = "limits";

fn vclock(clock: &Clock) -> VClock<u32> {
    VClock { dots: clock.clone() }
}

/// The crate's set that holds the replica. Its fields are its own, so the replica goes in through serde.
pub fn to_set(replica: &Replica) -> Set {
    let parts = (&replica.clock, &replica.entries, &replica.waiting);
    bincode::deserialize(&bincode::serialize(&parts).unwrap()).unwrap()
}

/// The replica that the crate's set holds.
pub fn of_set(set: &Set) -> Replica {
    let (clock, entries, waiting) = bincode::deserialize(&bincode::serialize(set).unwrap()).unwrap();
    Replica { clock, entries, waiting }
}

/// What `call` must answer where the output has room enough.
pub fn answer(call: &Call, met: &mut Differences) -> Answer {
    if call.name == Name::Empty {
        return finish(of_set(&Set::new()), met);
    }
    // 1, 2, 3, 4: the arguments, in the table's order.
    let Some(ours) = decode(&call.image) else {
        return refused_input(1, image::only_zeros_wrong(&call.image), met);
    };
    let theirs = match call.name {
        Name::Merge | Name::ValidateMerge => match decode(&call.other) {
            Some(theirs) => theirs,
            None => return refused_input(2, image::only_zeros_wrong(&call.other), met),
        },
        _ => Replica::default(),
    };
    let clock = match call.name {
        Name::Remove | Name::Reset | Name::ValidateRemove => match decode_clock(&call.other) {
            Some(clock) => clock,
            None => return refused_input(3, image::only_zeros_wrong_in_clock(&call.other), met),
        },
        _ => Clock::new(),
    };
    if call.members.len() > LIST {
        met.count(LIMITS);
        return Answer::refused(4);
    }
    let mut set = to_set(&ours);
    match call.name {
        Name::Check | Name::Empty => Answer::written(Vec::new()),
        Name::Add => {
            set.apply(add(call));
            finish(of_set(&set), met)
        }
        Name::Remove => {
            set.apply(Op::Rm { clock: vclock(&clock), members: call.members.clone() });
            finish(of_set(&set), met)
        }
        Name::Merge => {
            set.merge(to_set(&theirs));
            finish(of_set(&set), met)
        }
        Name::Reset => {
            set.reset_remove(&vclock(&clock));
            finish(joined_after_reset(&ours, &clock, of_set(&set), met), met)
        }
        Name::Contains => {
            let read = set.contains(&call.number);
            assert_eq!(read.add_clock.dots, ours.clock);
            Answer { number: 0, length: read.val as u32, bytes: image::encode_clock(&read.rm_clock.dots) }
        }
        Name::Read => read(&set, met),
        Name::Clock => Answer::written(image::encode_clock(&set.clock().dots)),
        Name::ValidateAdd => validated_add(&set, call, met),
        Name::ValidateRemove => {
            let verdict = set.validate_op(&Op::Rm { clock: vclock(&clock), members: call.members.clone() });
            assert_eq!(verdict, Ok(()));
            Answer::written(Vec::new())
        }
        Name::ValidateMerge => validated_merge(&set, &ours, &theirs, met),
    }
}

fn add(call: &Call) -> Op<u32, u32> {
    Op::Add { dot: Dot::new(call.number, call.counter), members: call.members.clone() }
}

fn refused_input(number: u32, only_zeros_wrong: bool, met: &mut Differences) -> Answer {
    if only_zeros_wrong {
        met.count(ZERO_COUNTERS);
    }
    Answer::refused(number)
}

/// 6, 7, 8, 9 on the finished result, else its image.
pub fn finish(result: Replica, met: &mut Differences) -> Answer {
    if let Some(number) = result.over_limit() {
        met.count(LIMITS);
        return Answer::refused(number);
    }
    let image = result.encode();
    assert_eq!(decode(&image).as_ref(), Some(&result), "the crate's result isn't well-formed");
    Answer::written(image)
}

/// "Waiting removes whose clocks became equal are joined." The crate keeps the members of one of them: checked, then joined.
pub fn joined_after_reset(before: &Replica, by: &Clock, after: Replica, met: &mut Differences) -> Replica {
    let mut rivals: BTreeMap<Clock, Vec<&BTreeSet<u32>>> = BTreeMap::new();
    for (clock, members) in &before.waiting {
        let mut left = vclock(clock);
        left.reset_remove(&vclock(by));
        if !left.is_empty() {
            rivals.entry(left.dots).or_default().push(members);
        }
    }
    assert!(rivals.keys().eq(after.waiting.keys()), "the crate's reset left other waiting clocks");
    let mut joined = after;
    for (clock, members) in &mut joined.waiting {
        assert!(rivals[clock].contains(&&*members), "the crate's reset left members of no waiting remove");
        let all: BTreeSet<u32> = rivals[clock].iter().flat_map(|m| m.iter().copied()).collect();
        if all != *members {
            met.count(EQUAL_AFTER_RESET);
            *members = all;
        }
    }
    joined
}

fn read(set: &Set, met: &mut Differences) -> Answer {
    let read = set.read();
    assert!(read.add_clock == set.clock() && read.rm_clock == set.clock());
    let in_its_order: Vec<u32> = read.val.into_iter().collect();
    let mut members = in_its_order.clone();
    members.sort();
    if members != in_its_order {
        met.count(ORDER_OF_ITERATION);
    }
    let bytes = members.iter().flat_map(|m| m.to_le_bytes()).collect();
    Answer { number: 0, length: members.len() as u32, bytes }
}

/// The crate's verdict, but for a clock that holds the largest counter: there it adds 1 and wraps, and here is no gap.
fn validated_add(set: &Set, call: &Call, met: &mut Differences) -> Answer {
    let verdict = set.validate_op(&add(call));
    if set.clock().get(&call.number) == u64::MAX {
        let wrapped = DotRange { actor: call.number, counter_range: 0..call.counter };
        assert_eq!(verdict, if call.counter > 0 { Err(wrapped) } else { Ok(()) });
        if verdict.is_err() {
            met.count(LARGEST_COUNTER);
        }
        return Answer::written(Vec::new());
    }
    match verdict {
        Ok(()) => Answer::written(Vec::new()),
        Err(DotRange { counter_range, .. }) => {
            let bytes = [counter_range.start.to_le_bytes(), counter_range.end.to_le_bytes()].concat();
            Answer { number: 11, length: 0, bytes }
        }
    }
}

/// The crate reports any double-spent dot, here the first is: "our members ascending, then theirs, then actors".
fn validated_merge(set: &Set, ours: &Replica, theirs: &Replica, met: &mut Differences) -> Answer {
    let mut all = Vec::new();
    for (our_member, our_clock) in &ours.entries {
        for (their_member, their_clock) in theirs.entries.iter().filter(|(m, _)| *m != our_member) {
            let spent = our_clock.iter().filter(|(a, n)| their_clock.get(a) == Some(n));
            all.extend(spent.map(|(a, n)| (*a, *n, *our_member, *their_member)));
        }
    }
    match set.validate_merge(&to_set(theirs)) {
        Ok(()) => {
            assert!(all.is_empty(), "the crate overlooks a double-spent dot");
            Answer::written(Vec::new())
        }
        Err(Validation::DoubleSpentDot { dot, our_member, their_member }) => {
            let reported = (dot.actor, dot.counter, our_member, their_member);
            assert!(all.contains(&reported), "the crate reports no double-spent dot");
            if all[0] != reported {
                met.count(ORDER_OF_VALIDATE);
            }
            let (actor, counter, our, their) = all[0];
            let mut bytes = actor.to_le_bytes().to_vec();
            bytes.extend(counter.to_le_bytes());
            bytes.extend(our.to_le_bytes());
            bytes.extend(their.to_le_bytes());
            Answer { number: 12, length: 0, bytes }
        }
    }
}
