//! The replica image and what is well-formed, written from docs/RULES.md and from nothing else.

use std::collections::{BTreeMap, BTreeSet};

/// Actor to counter. Clocks are ordered as the image orders them: pairs in turn, actor then counter, a proper prefix first.
pub type Clock = BTreeMap<u32, u64>;

pub const ACTORS: usize = 16;
pub const MEMBERS: usize = 64;
pub const WAITING: usize = 16;
pub const WAITING_MEMBERS: usize = 32;
pub const LIST: usize = 64;
pub const LONGEST: usize = 18268;

/// "A replica has a clock V, entries (member with clock) and waiting removes (clock with member set)."
#[derive(Clone, Debug, Default, PartialEq, Eq)]
pub struct Replica {
    pub clock: Clock,
    pub entries: BTreeMap<u32, Clock>,
    pub waiting: BTreeMap<Clock, BTreeSet<u32>>,
}

/// "A clock covers a dot if its counter for that actor is at least the dot's."
pub fn covers_dot(clock: &Clock, actor: u32, counter: u64) -> bool {
    clock.get(&actor).copied().unwrap_or(0) >= counter
}

/// "It covers a clock if it covers all of its dots."
pub fn covers(clock: &Clock, other: &Clock) -> bool {
    other.iter().all(|(&actor, &counter)| covers_dot(clock, actor, counter))
}

impl Replica {
    /// The rules on values; the reader below sees to order, zero counters and limits.
    fn well_formed(&self) -> bool {
        // "Entry clocks are not empty and V covers them; waiting clocks are not empty."
        let entries = self.entries.values().all(|c| !c.is_empty() && covers(&self.clock, c));
        let waiting = self.waiting.keys().all(|c| !c.is_empty());
        // "No entry holds a dot covered by a waiting remove that names its member."
        let killed = |member: &u32, actor: u32, counter: u64| {
            self.waiting.iter().any(|(c, members)| members.contains(member) && covers_dot(c, actor, counter))
        };
        let alive = self.entries.iter().all(|(m, c)| c.iter().all(|(&a, &n)| !killed(m, a, n)));
        entries && waiting && alive
    }

    /// The number of the first limit that a finished result breaks.
    pub fn over_limit(&self) -> Option<u32> {
        if self.clock.len() > ACTORS {
            Some(6)
        } else if self.entries.len() > MEMBERS {
            Some(7)
        } else if self.waiting.len() > WAITING {
            Some(8)
        } else if self.waiting.values().any(|members| members.len() > WAITING_MEMBERS) {
            Some(9)
        } else {
            None
        }
    }

    /// "Contents first, then bodies; little-endian; no gaps."
    pub fn encode(&self) -> Vec<u8> {
        let rows = Rows {
            clock: dots(&self.clock),
            entries: self.entries.iter().map(|(m, c)| (*m, dots(c))).collect(),
            waiting: self.waiting.iter().map(|(c, m)| (dots(c), m.iter().copied().collect())).collect(),
        };
        rows.encode()
    }
}

fn dots(clock: &Clock) -> Vec<(u32, u64)> {
    clock.iter().map(|(a, n)| (*a, *n)).collect()
}

/// What an image says before anything is judged: rows in any order, with anything twice. The damaged images are made of these.
#[derive(Clone, Debug, Default)]
pub struct Rows {
    pub clock: Vec<(u32, u64)>,
    pub entries: Vec<(u32, Vec<(u32, u64)>)>,
    pub waiting: Vec<(Vec<(u32, u64)>, Vec<u32>)>,
}

impl Rows {
    pub fn encode(&self) -> Vec<u8> {
        let mut entries = Vec::new();
        for (member, clock) in &self.entries {
            entries.extend(member.to_le_bytes());
            entries.extend(encode_dots(clock));
        }
        let mut waiting = Vec::new();
        for (clock, members) in &self.waiting {
            waiting.extend(encode_dots(clock));
            waiting.extend((members.len() as u32).to_le_bytes());
            waiting.extend(members.iter().flat_map(|m| m.to_le_bytes()));
        }
        let clock = encode_dots(&self.clock);
        let entries_start = 24 + clock.len();
        let waiting_start = entries_start + entries.len();
        let total = waiting_start + waiting.len();
        let mut bytes = vec![1, 0, 0, 0];
        for number in [total, entries_start, self.entries.len(), waiting_start, self.waiting.len()] {
            bytes.extend((number as u32).to_le_bytes());
        }
        bytes.extend(clock);
        bytes.extend(entries);
        bytes.extend(waiting);
        bytes
    }
}

/// "A clock is a 32-bit count, then 12 bytes per dot: actor, counter."
pub fn encode_dots(dots: &[(u32, u64)]) -> Vec<u8> {
    let mut bytes = (dots.len() as u32).to_le_bytes().to_vec();
    for (actor, counter) in dots {
        bytes.extend(actor.to_le_bytes());
        bytes.extend(counter.to_le_bytes());
    }
    bytes
}

pub fn encode_clock(clock: &Clock) -> Vec<u8> {
    encode_dots(&dots(clock))
}

/// The replica of a well-formed image.
pub fn decode(image: &[u8]) -> Option<Replica> {
    Reader { left: image, zeros: false }.replica(image.len()).filter(Replica::well_formed)
}

/// The clock of a lent clock argument: normalised, at most 16 actors, nothing after it.
pub fn decode_clock(bytes: &[u8]) -> Option<Clock> {
    let mut reader = Reader { left: bytes, zeros: false };
    reader.clock().filter(|_| reader.left.is_empty())
}

/// Whether zero counters are all that is wrong with the image.
pub fn only_zeros_wrong(image: &[u8]) -> bool {
    let replica = Reader { left: image, zeros: true }.replica(image.len());
    decode(image).is_none() && replica.is_some_and(|r| r.well_formed())
}

/// Whether zero counters are all that is wrong with the clock argument.
pub fn only_zeros_wrong_in_clock(bytes: &[u8]) -> bool {
    let mut reader = Reader { left: bytes, zeros: true };
    decode_clock(bytes).is_none() && reader.clock().is_some() && reader.left.is_empty()
}

/// What is left to read, and whether zero counters pass (read as missing).
struct Reader<'a> {
    left: &'a [u8],
    zeros: bool,
}

impl Reader<'_> {
    fn bytes<const N: usize>(&mut self) -> Option<[u8; N]> {
        let (first, rest) = self.left.split_first_chunk::<N>()?;
        self.left = rest;
        Some(*first)
    }

    fn u16(&mut self) -> Option<u16> {
        self.bytes().map(u16::from_le_bytes)
    }

    fn u32(&mut self) -> Option<u32> {
        self.bytes().map(u32::from_le_bytes)
    }

    fn u64(&mut self) -> Option<u64> {
        self.bytes().map(u64::from_le_bytes)
    }

    /// A count that keeps its limit.
    fn count(&mut self, limit: usize) -> Option<usize> {
        self.u32().map(|n| n as usize).filter(|n| *n <= limit)
    }

    /// "Actors strictly ascending, no zero counter", at most 16.
    fn clock(&mut self) -> Option<Clock> {
        let mut clock = Clock::new();
        let mut last = None;
        for _ in 0..self.count(ACTORS)? {
            let (actor, counter) = (self.u32()?, self.u64()?);
            if last >= Some(actor) || (counter == 0 && !self.zeros) {
                return None;
            }
            last = Some(actor);
            if counter != 0 {
                clock.insert(actor, counter);
            }
        }
        Some(clock)
    }

    /// "Contents, 24 bytes: version 1 (16 bits), zero (16 bits), total length, entries' start, entries' count, waiting removes'
    /// start, their count (32 bits each). Then V, entries by ascending member, waiting removes by ascending clock. The lent
    /// image is exactly its total length."
    fn replica(&mut self, length: usize) -> Option<Replica> {
        let (version, zero) = (self.u16()?, self.u16()?);
        let total = self.u32()? as usize;
        let entries_start = self.u32()? as usize;
        let entries_count = self.count(MEMBERS)?;
        let waiting_start = self.u32()? as usize;
        let waiting_count = self.count(WAITING)?;
        if version != 1 || zero != 0 || total != length {
            return None;
        }
        let mut replica = Replica { clock: self.clock()?, ..Default::default() };
        if length - self.left.len() != entries_start {
            return None;
        }
        for _ in 0..entries_count {
            let (member, clock) = (self.u32()?, self.clock()?);
            if replica.entries.last_key_value().is_some_and(|(last, _)| *last >= member) {
                return None;
            }
            replica.entries.insert(member, clock);
        }
        if length - self.left.len() != waiting_start {
            return None;
        }
        for _ in 0..waiting_count {
            let clock = self.clock()?;
            if replica.waiting.last_key_value().is_some_and(|(last, _)| *last >= clock) {
                return None;
            }
            let mut members = BTreeSet::new();
            for _ in 0..self.count(WAITING_MEMBERS)? {
                let member = self.u32()?;
                if members.last().is_some_and(|last| *last >= member) {
                    return None;
                }
                members.insert(member);
            }
            replica.waiting.insert(clock, members);
        }
        self.left.is_empty().then_some(replica)
    }
}
