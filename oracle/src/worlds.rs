//! The inputs: marked cases, every replica of small worlds, replicas around every limit, damaged images, histories of calls.

use crate::calls::{Answer, Call, Name};
use crate::crdts_answers::{self, Differences, Set};
use crate::image::{decode, decode_clock, encode_clock, encode_dots, Clock, Replica, Rows};
use crate::random::Random;
use crdts::orswot::Op;
use crdts::{CmRDT, CvRDT, Dot, ResetRemove, VClock};
use std::collections::{BTreeMap, BTreeSet};

/// Takes the calls one after the other.
pub type Sink<'a> = &'a mut dyn FnMut(Call);

fn replica(clock: &[(u32, u64)], entries: &[(u32, &[(u32, u64)])], waiting: &[(&[(u32, u64)], &[u32])]) -> Vec<u8> {
    let rows = Rows {
        clock: clock.to_vec(),
        entries: entries.iter().map(|(m, c)| (*m, c.to_vec())).collect(),
        waiting: waiting.iter().map(|(c, m)| (c.to_vec(), m.to_vec())).collect(),
    };
    rows.encode()
}

/// Every call once on this replica and its arguments.
fn every_call(image: &[u8], other: &[u8], clock: &[u8], dot: (u32, u64), member: u32, members: &[u32], sink: Sink) {
    for name in Name::ALL {
        let call = match name {
            Name::Merge | Name::ValidateMerge => Call::new(name, image, other),
            Name::Remove | Name::ValidateRemove => Call::new(name, image, clock).members(members),
            Name::Reset => Call::new(name, image, clock),
            Name::Add | Name::ValidateAdd => Call::new(name, image, &[]).dot(dot.0, dot.1).members(members),
            Name::Contains => Call::new(name, image, &[]).member(member),
            Name::Check | Name::Read | Name::Clock => Call::new(name, image, &[]),
            Name::Empty => Call::new(name, &[], &[]),
        };
        sink(call);
    }
}

/// Cases 5 to 13 of docs/RULES.md, 7, and what it says at the limits.
pub fn marked_cases(sink: Sink) {
    let e = replica(&[(1, 1)], &[(5, &[(1, 1)])], &[]);
    let empty = replica(&[], &[], &[]);
    sink(Call::new(Name::Add, &empty, &[]).dot(1, 1).members(&[5]));
    sink(Call::new(Name::ValidateAdd, &e, &[]).dot(1, 3).members(&[6]));
    sink(Call::new(Name::Add, &e, &[]).dot(1, 3).members(&[6]));
    sink(Call::new(Name::Remove, &e, &encode_dots(&[(1, 1), (2, 2)])).members(&[5]));
    let waits = replica(&[(1, 1)], &[], &[(&[(1, 1), (2, 2)], &[5])]);
    sink(Call::new(Name::Add, &waits, &[]).dot(2, 1).members(&[5]));
    let still = replica(&[(1, 1), (2, 1)], &[], &[(&[(1, 1), (2, 2)], &[5])]);
    sink(Call::new(Name::Add, &still, &[]).dot(2, 3).members(&[5]));
    let (ours, theirs) = (&[(1, 1), (2, 1)], &[(1, 1), (2, 1)]);
    sink(Call::new(Name::Merge, &replica(ours, &[(5, &[(1, 1)])], &[]), &replica(theirs, &[(5, &[(2, 1)])], &[])));
    sink(Call::new(Name::Merge, &e, &replica(&[(2, 1)], &[(5, &[(2, 1)])], &[])));
    let unsettled = replica(&[(2, 5)], &[], &[(&[(2, 3)], &[5])]);
    sink(Call::new(Name::Reset, &replica(&[(2, 5)], &[], &[(&[(1, 2), (2, 3)], &[5])]), &encode_dots(&[(1, 2)])));
    sink(Call::new(Name::Merge, &unsettled, &unsettled));
    let two = replica(&[], &[], &[(&[(1, 1), (2, 2)], &[5]), (&[(1, 2), (2, 2)], &[6])]);
    sink(Call::new(Name::Reset, &two, &encode_dots(&[(1, 2)])));
    // A full clock and a full set: what still fits, and what is one too many.
    let actors: Vec<(u32, u64)> = (1..=16).map(|a| (a, 1)).collect();
    let full = replica(&actors, &[], &[]);
    for actor in [16, 17] {
        for counter in [0, 1, 2] {
            sink(Call::new(Name::Add, &full, &[]).dot(actor, counter).members(&[5]));
        }
    }
    let killed_at_once: Vec<(Vec<(u32, u64)>, Vec<u32>)> = vec![(vec![(2, 9)], vec![100])];
    let entries: Vec<(u32, Vec<(u32, u64)>)> = (0..64).map(|m| (m, vec![(1, 1)])).collect();
    for waiting in [Vec::new(), killed_at_once] {
        let full = Rows { clock: vec![(1, 1)], entries: entries.clone(), waiting }.encode();
        sink(Call::new(Name::Add, &full, &[]).dot(2, 1).members(&[63]));
        sink(Call::new(Name::Add, &full, &[]).dot(2, 1).members(&[100]));
        sink(Call::new(Name::Add, &full, &[]).dot(2, 1).members(&[100, 101]));
    }
}

/// A small world: its actors have counters up to `counter`, a replica has up to `waiting` waiting removes.
pub struct World {
    pub actors: &'static [u32],
    pub counter: u64,
    pub members: &'static [u32],
    pub waiting: usize,
}

pub const SMALL: [World; 6] = [
    World { actors: &[1, 2], counter: 2, members: &[5], waiting: 1 },
    World { actors: &[1, 2], counter: 1, members: &[5, 6], waiting: 2 },
    World { actors: &[1, 2, 3], counter: 1, members: &[5], waiting: 1 },
    World { actors: &[1, 2], counter: 3, members: &[5], waiting: 0 },
    World { actors: &[1, 2], counter: 2, members: &[5, 6], waiting: 0 },
    World { actors: &[1], counter: 3, members: &[5, 6], waiting: 2 },
];

/// What the long run adds.
pub const LARGER: [World; 2] = [
    World { actors: &[1, 2], counter: 2, members: &[5, 6], waiting: 1 },
    World { actors: &[1, 2, 3], counter: 2, members: &[5], waiting: 1 },
];

impl World {
    /// Every clock of the world up to `counter`, the empty one included.
    fn clocks(&self, counter: u64) -> Vec<Clock> {
        let mut all = vec![Clock::new()];
        for &actor in self.actors {
            let with = |c: &Clock, n: u64| c.iter().map(|(a, m)| (*a, *m)).chain([(actor, n)]).collect();
            let more: Vec<Clock> = all.iter().flat_map(|c| (1..=counter).map(move |n| with(c, n))).collect();
            all.extend(more);
        }
        all
    }

    /// Every set of at most `waiting` waiting removes.
    fn waiting_sets(&self) -> Vec<BTreeMap<Clock, BTreeSet<u32>>> {
        let mut all = vec![BTreeMap::new()];
        for clock in self.clocks(self.counter).iter().filter(|c| !c.is_empty()) {
            for set in all.clone().iter().filter(|s: &&BTreeMap<_, _>| s.len() < self.waiting) {
                for chosen in 0..1u32 << self.members.len() {
                    let named = |i: usize| chosen >> i & 1 == 1;
                    let members = (0..self.members.len()).filter(|i| named(*i)).map(|i| self.members[i]).collect();
                    let mut more = set.clone();
                    more.insert(clock.clone(), members);
                    all.push(more);
                }
            }
        }
        all
    }

    /// Every well-formed replica, as images.
    pub fn replicas(&self) -> Vec<Vec<u8>> {
        let clocks = self.clocks(self.counter);
        let mut all = Vec::new();
        for clock in &clocks {
            let mut entry_sets = vec![BTreeMap::new()];
            for member in self.members {
                for set in entry_sets.clone() {
                    for entry in clocks.iter().filter(|c| !c.is_empty()) {
                        let mut more = set.clone();
                        more.insert(*member, entry.clone());
                        entry_sets.push(more);
                    }
                }
            }
            for entries in &entry_sets {
                for waiting in &self.waiting_sets() {
                    let replica = Replica { clock: clock.clone(), entries: entries.clone(), waiting: waiting.clone() };
                    all.push(replica.encode());
                }
            }
        }
        all.retain(|image| decode(image).is_some());
        all
    }

    /// Every call on every replica with every argument of the world, and every pair of replicas.
    pub fn calls(&self, sink: Sink) {
        let replicas = self.replicas();
        let mut lists = vec![Vec::new(), self.members.to_vec(), vec![7], [self.members, &[4], self.members].concat()];
        lists.extend(self.members.iter().map(|m| vec![*m]));
        let mut clocks: Vec<Vec<u8>> = self.clocks(self.counter + 1).iter().map(encode_clock).collect();
        clocks.push(encode_dots(&[(self.actors[0], 1), (9, 1)]));
        for image in &replicas {
            for name in [Name::Check, Name::Read, Name::Clock] {
                sink(Call::new(name, image, &[]));
            }
            for member in self.members.iter().chain(&[7]) {
                sink(Call::new(Name::Contains, image, &[]).member(*member));
            }
            for clock in &clocks {
                sink(Call::new(Name::Reset, image, clock));
            }
            for list in &lists {
                for clock in &clocks {
                    sink(Call::new(Name::Remove, image, clock).members(list));
                }
                for actor in self.actors.iter().chain(&[9]) {
                    for counter in 0..=self.counter + 2 {
                        sink(Call::new(Name::Add, image, &[]).dot(*actor, counter).members(list));
                        sink(Call::new(Name::ValidateAdd, image, &[]).dot(*actor, counter).members(list));
                    }
                }
                sink(Call::new(Name::ValidateRemove, image, &clocks[list.len()]).members(list));
            }
            for other in &replicas {
                sink(Call::new(Name::Merge, image, other));
                sink(Call::new(Name::ValidateMerge, image, other));
            }
        }
    }
}

/// Numbers that replicas near the limits share, so that merges and joins stay near them too.
struct Pool {
    actors: Vec<u32>,
    members: Vec<u32>,
    /// Entry counters lie a little above this, waiting ones far above.
    base: u64,
    waiting: Vec<Clock>,
    /// Few dots in each clock, and few members in most waiting removes.
    lean: bool,
}

/// `count` different numbers, the smallest and the largest among them.
fn numbers(count: usize, random: &mut Random) -> Vec<u32> {
    let mut all = BTreeSet::from([0, u32::MAX]);
    while all.len() < count {
        all.insert(if random.once_in(2) { random.below(100) as u32 } else { random.next() as u32 });
    }
    all.into_iter().collect()
}

impl Pool {
    fn new(random: &mut Random) -> Pool {
        let actors = numbers(random.from_to(17, 18), random);
        let members = numbers(random.from_to(64, 70), random);
        let base = random.pick(&[0, 0, 1000, u64::MAX - 120]);
        let lean = random.once_in(2);
        // Two actors have dots far ahead, on which removes wait; pairs differ in a lower dot only, so that a reset makes them equal.
        let mut waiting = Vec::new();
        for i in 0..random.from_to(17, 18) {
            let ahead = actors[random.below(2)];
            let mut clock = Clock::from([(ahead, base + 100 + i as u64 / 2)]);
            for _ in 0..random.pick(if lean { &[0, 1, 1] } else { &[0, 1, 2, 14] }) {
                clock.entry(random.pick(&actors[2..])).or_insert(base + random.from_to(1, 2) as u64);
            }
            waiting.push(clock);
        }
        Pool { actors, members, base, waiting, lean }
    }

    fn some<T: Clone>(of: &[T], count: usize, random: &mut Random) -> Vec<T> {
        let mut left = of.to_vec();
        while left.len() > count {
            left.remove(random.below(left.len()));
        }
        left
    }

    /// A replica with as many rows as its limits allow, or a few less, or few.
    fn replica(&self, random: &mut Random) -> Replica {
        let few = random.once_in(3);
        let size = |most: usize, random: &mut Random| match few {
            true => random.below(4),
            false => most - random.pick(&[0, 0, 0, 1, 2, most]),
        };
        let mut r = Replica::default();
        for actor in Pool::some(&self.actors, size(16, random).max(1), random) {
            r.clock.insert(actor, self.base + random.from_to(3, 5) as u64);
        }
        if random.once_in(4) {
            r.clock.entry(self.actors[16]).and_modify(|counter| *counter = u64::MAX);
        }
        let seen: Vec<(u32, u64)> = r.clock.iter().map(|(a, n)| (*a, *n)).collect();
        for clock in Pool::some(&self.waiting, size(16, random), random) {
            let most = if self.lean && !random.once_in(10) { random.below(3) } else { size(32, random) };
            r.waiting.insert(clock, Pool::some(&self.members, most, random).into_iter().collect());
        }
        for member in Pool::some(&self.members, size(64, random), random) {
            let mut clock = Clock::new();
            for _ in 0..if self.lean { 1 } else { random.pick(&[1, 1, 2, 3, 16]) } {
                let (actor, counter) = random.pick(&seen);
                clock.insert(actor, counter - random.pick(&[0, 0, 1, 2]));
            }
            r.entries.insert(member, clock);
        }
        for (member, clock) in &mut r.entries {
            for (by, _) in r.waiting.iter().filter(|(_, named)| named.contains(member)) {
                clock.retain(|a, n| by.get(a).copied().unwrap_or(0) < *n);
            }
        }
        r.entries.retain(|_, clock| !clock.is_empty());
        r
    }

    fn clock(&self, replica: &Replica, random: &mut Random) -> Clock {
        match random.below(7) {
            0 => replica.clock.clone(),
            1 => replica.entries.values().next().cloned().unwrap_or_default(),
            2 => self.waiting[random.below(self.waiting.len())].clone(),
            3 => {
                let mut clock = self.waiting[random.below(self.waiting.len())].clone();
                clock.insert(random.pick(&self.actors), self.base + random.from_to(1, 120) as u64);
                while clock.len() > 16 {
                    clock.pop_first();
                }
                clock
            }
            // All but the two actors whose dots are ahead: makes waiting removes equal.
            4 => self.actors[2..].iter().map(|a| (*a, self.base + 2)).collect(),
            5 => Pool::some(&self.actors, 16, random).iter().map(|a| (*a, u64::MAX)).collect(),
            _ => Pool::some(&self.actors, random.below(17), random)
                .iter()
                .map(|a| (*a, self.base + random.from_to(1, 5) as u64))
                .collect(),
        }
    }

    fn dot(&self, replica: &Replica, random: &mut Random) -> (u32, u64) {
        let actor = random.pick(&self.actors);
        let seen = replica.clock.get(&actor).copied().unwrap_or(0);
        let counter = match random.below(8) {
            0 => random.pick(&[0, 1, u64::MAX - 1, u64::MAX]),
            1 => seen,
            2 => seen.saturating_add(random.from_to(2, 4) as u64),
            3 | 4 => self.base + random.from_to(95, 112) as u64,
            _ => seen.saturating_add(1),
        };
        (actor, counter)
    }

    fn list(&self, random: &mut Random) -> Vec<u32> {
        let length = random.pick(&[0, 1, 1, 2, 5, 16, 31, 32, 33, 63, 64, 65]);
        let narrow = random.from_to(1, self.members.len());
        (0..length).map(|_| self.members[random.below(narrow)]).collect()
    }
}

/// `rounds` batches of replicas around the limits, with every call on them.
pub fn around_limits(rounds: usize, random: &mut Random, sink: Sink) {
    for _ in 0..rounds {
        let pool = Pool::new(random);
        let replicas: Vec<Replica> = (0..6).map(|_| pool.replica(random)).collect();
        for ours in &replicas {
            let image = ours.encode();
            for theirs in &replicas {
                let other = theirs.encode();
                let clock = encode_clock(&pool.clock(ours, random));
                let member = random.pick(&pool.members);
                every_call(&image, &other, &clock, pool.dot(ours, random), member, &pool.list(random), sink);
            }
        }
    }
}

/// Images of replicas small and large, and with a fault.
pub fn images(pools: usize, random: &mut Random) -> Vec<Vec<u8>> {
    let mut all = SMALL[2].replicas();
    for _ in 0..pools {
        let pool = Pool::new(random);
        for _ in 0..6 {
            let replica = pool.replica(random);
            all.push(replica.encode());
            all.push(damaged(&replica, random));
        }
    }
    all
}

/// One fault in what the rows say; now and then none.
fn damage_rows(rows: &mut Rows, random: &mut Random) {
    let entry = random.below(rows.entries.len().max(1));
    let wait = random.below(rows.waiting.len().max(1));
    let (some_entry, some_wait) = (!rows.entries.is_empty(), !rows.waiting.is_empty());
    match random.below(12) {
        0 => damage_dots(&mut rows.clock, random),
        1 if some_entry => damage_dots(&mut rows.entries[entry].1, random),
        2 if some_wait => damage_dots(&mut rows.waiting[wait].0, random),
        3 if some_entry => rows.entries.swap(entry, 0),
        4 if some_entry => rows.entries.insert(entry, rows.entries[entry].clone()),
        5 if some_wait => rows.waiting.swap(wait, 0),
        6 if some_wait => rows.waiting.insert(wait, rows.waiting[wait].clone()),
        7 if some_wait => rows.waiting[wait].1.reverse(),
        // A member twice, or one that the remove may cover.
        8 if some_wait && some_entry => {
            let members = &mut rows.waiting[wait].1;
            members.push(rows.entries[entry].0);
            members.sort();
        }
        9 => rows.entries.extend((0..65).map(|m| (m, rows.clock.clone()))),
        10 => rows.waiting.extend((1..18).map(|n| (vec![(7, n)], vec![]))),
        11 if some_wait => rows.waiting[wait].1 = (1000..1000 + random.from_to(32, 34) as u32).collect(),
        _ => {}
    }
}

fn damage_dots(dots: &mut Vec<(u32, u64)>, random: &mut Random) {
    let place = random.below(dots.len().max(1));
    match random.below(6) {
        0 => dots.clear(),
        1 if !dots.is_empty() => dots[place].1 = 0,
        2 if !dots.is_empty() => dots.insert(place, dots[place]),
        3 if dots.len() > 1 => dots.swap(place, 0),
        4 if !dots.is_empty() => dots[place].1 = dots[place].1.wrapping_add(1),
        _ => *dots = (0..random.from_to(15, 18) as u32).map(|a| (a, 1)).collect(),
    }
}

/// A fault in the bytes: a 32-bit field changed, a byte changed, the end cut or drawn out, a gap before the rows.
pub fn damage_bytes(bytes: &mut Vec<u8>, random: &mut Random) {
    let fields = bytes.len() / 4;
    match random.below(6) {
        0 | 1 if fields > 0 => {
            let at = 4 * if random.once_in(2) { random.below(fields) } else { random.below(fields.min(7)) };
            let old = u32::from_le_bytes(bytes[at..at + 4].try_into().unwrap());
            let new = random.pick(&[old.wrapping_add(1), old.wrapping_sub(1), old.wrapping_add(12), 0, u32::MAX, old << 16, 17]);
            bytes[at..at + 4].copy_from_slice(&new.to_le_bytes());
        }
        2 if !bytes.is_empty() => {
            let at = random.below(bytes.len());
            bytes[at] = random.next() as u8;
        }
        3 => bytes.truncate(random.below(bytes.len() + 1)),
        4 => bytes.extend(vec![0; random.from_to(1, 16)]),
        _ if bytes.len() >= 28 => {
            // Total and both starts move, as if four bytes stood before the entries (or before the waiting removes).
            for at in if random.once_in(2) { vec![4, 8, 16] } else { vec![4, 16] } {
                bytes[at] = bytes[at].wrapping_add(4);
            }
            bytes.extend([0; 4]);
        }
        _ => {}
    }
}

/// An image with a fault, or with two.
fn damaged(replica: &Replica, random: &mut Random) -> Vec<u8> {
    let mut rows = Rows {
        clock: replica.clock.clone().into_iter().collect(),
        entries: replica.entries.iter().map(|(m, c)| (*m, c.clone().into_iter().collect())).collect(),
        waiting: replica.waiting.iter().map(|(c, m)| (c.clone().into_iter().collect(), m.iter().copied().collect())).collect(),
    };
    let in_rows = !random.once_in(3);
    if in_rows {
        damage_rows(&mut rows, random);
    }
    let mut bytes = rows.encode();
    if !in_rows || random.once_in(8) {
        damage_bytes(&mut bytes, random);
    }
    bytes
}

/// A clock argument with a fault, or with none.
fn damaged_clock(clock: &Clock, random: &mut Random) -> Vec<u8> {
    let mut dots: Vec<(u32, u64)> = clock.clone().into_iter().collect();
    damage_dots(&mut dots, random);
    let mut bytes = encode_dots(&dots);
    if random.once_in(3) {
        damage_bytes(&mut bytes, random);
    }
    bytes
}

/// `rounds` replicas, large and small, damaged in every argument of every call.
pub fn damaged_inputs(rounds: usize, random: &mut Random, sink: Sink) {
    let small = SMALL[1].replicas();
    for _ in 0..rounds {
        let pool = Pool::new(random);
        let some = |random: &mut Random| match random.once_in(4) {
            true => pool.replica(random),
            false => decode(&small[random.below(small.len())]).unwrap(),
        };
        let (ours, theirs) = (some(random), some(random));
        let (member, dot, list) = (random.pick(&pool.members), pool.dot(&ours, random), pool.list(random));
        let (image, other, clock) = (ours.encode(), theirs.encode(), encode_clock(&pool.clock(&ours, random)));
        let bad = damaged(&ours, random);
        every_call(&bad, &other, &clock, dot, member, &list, sink);
        every_call(&image, &damaged(&theirs, random), &damaged_clock(&ours.clock, random), dot, member, &list, sink);
        every_call(&bad, &damaged(&theirs, random), &damaged_clock(&ours.clock, random), dot, member, &list, sink);
    }
}

/// `rounds` histories of 40 calls on three replicas: adds and removes made at one and delivered to others late, twice and out of
/// order, merges, resets. The crate's sets are kept in memory beside the images and must agree with them.
pub fn histories(rounds: usize, random: &mut Random, sink: Sink) {
    let mut met = Differences::default();
    for _ in 0..rounds {
        let mut sets = vec![Set::new(); 3];
        let mut sent: Vec<Op<u32, u32>> = Vec::new();
        for _ in 0..40 {
            let at = random.below(3);
            let image = crdts_answers::of_set(&sets[at]).encode();
            let mut next = sets[at].clone();
            let member = random.below(4) as u32;
            let call = match random.below(8) {
                step @ 0..=4 => {
                    let op = match step {
                        0 => next.add(member, next.read_ctx().derive_add_ctx(at as u32 + 1)),
                        1 => next.add_all([member, member + 1], next.read_ctx().derive_add_ctx(at as u32 + 1)),
                        2 => next.rm(member, next.contains(&member).derive_rm_ctx()),
                        3 if !sent.is_empty() => sent[random.below(sent.len())].clone(),
                        _ => {
                            let clock = (1..=3).map(|a| Dot::new(a, random.below(6) as u64)).collect::<VClock<u32>>();
                            Op::Rm { clock, members: vec![member] }
                        }
                    };
                    sent.push(op.clone());
                    next.apply(op.clone());
                    match op {
                        Op::Add { dot, members } => {
                            Call::new(Name::Add, &image, &[]).dot(dot.actor, dot.counter).members(&members)
                        }
                        Op::Rm { clock, members } => {
                            Call::new(Name::Remove, &image, &encode_clock(&clock.dots)).members(&members)
                        }
                    }
                }
                5 | 6 => {
                    let other = &sets[(at + 1) % 3];
                    next.merge(other.clone());
                    Call::new(Name::Merge, &image, &crdts_answers::of_set(other).encode())
                }
                _ => {
                    let clock = (1..=3).map(|a| Dot::new(a, random.below(3) as u64)).collect::<VClock<u32>>();
                    next.reset_remove(&clock);
                    Call::new(Name::Reset, &image, &encode_clock(&clock.dots))
                }
            };
            let mut result = crdts_answers::of_set(&next);
            if call.name == Name::Reset {
                let (before, by) = (decode(&image).unwrap(), decode_clock(&call.other).unwrap());
                result = crdts_answers::joined_after_reset(&before, &by, result, &mut met);
                next = crdts_answers::to_set(&result);
            }
            let answer: Answer = crdts_answers::finish(result, &mut met);
            assert_eq!(answer, crdts_answers::answer(&call, &mut met), "memory and image part");
            if answer.number == 0 {
                sets[at] = next;
            }
            sink(call);
        }
    }
}
