//! Writes stored answers of the crate: a sample of the calls that `compare` makes, one a line. The library has no part in it.

use oracle::calls::{Call, Name};
use oracle::crdts_answers::{answer, Differences};
use oracle::random::Random;
use oracle::worlds::{self, Sink};
use std::collections::BTreeMap;

const HEAD: &str = "\
# Answers of the Rust crate crdts (7.2.0 as Debian packages it, the same code as 7.3.2), written by oracle/write-answers.
# A line is a call with its answer, fields parted by one space, each in hex, or - for what is empty:
#   name image other number counter members room refusal length output
# image: the first image. other: the second image, or the clock argument. number: the actor, or the member that contains asks for.
# members: 8 digits each. room: how many bytes the lent output has. refusal, length: the two halves of the answer.
# output: what then stands at the output's start; its later bytes are as they were.";

/// At most `most` calls for each pair of name and refusal number, drawn evenly, none of whose lines is over `longest`.
struct Sample {
    most: usize,
    longest: usize,
    random: Random,
    seen: BTreeMap<(Name, u32), usize>,
    kept: BTreeMap<(Name, u32), Vec<String>>,
}

impl Sample {
    fn consider(&mut self, call: Call) {
        let granted = answer(&call, &mut Differences::default());
        let enough = granted.bytes.len();
        let room = self.random.pick(&[enough, enough, enough + 9, enough.saturating_sub(1)]);
        let expected = granted.in_room(room);
        let key = (call.name, expected.number);
        let line_length = 2 * (call.image.len() + call.other.len() + 4 * call.members.len() + enough) + 80;
        if line_length > self.longest {
            return;
        }
        let (seen, kept) = (self.seen.entry(key).or_default(), self.kept.entry(key).or_default());
        *seen += 1;
        let place = if kept.len() < self.most { kept.len() } else { self.random.below(*seen) };
        if place < self.most {
            let line = format!("{} {}", call.line(room), expected.line());
            match kept.get_mut(place) {
                Some(old) => *old = line,
                None => kept.push(line),
            }
        }
    }
}

/// Prints a sample of the calls that `source` makes.
fn print_sample(most: usize, longest: usize, source: impl FnOnce(Sink)) {
    let mut sample = Sample { most, longest, random: Random(2), seen: BTreeMap::new(), kept: BTreeMap::new() };
    source(&mut |call| sample.consider(call));
    for line in sample.kept.values().flatten() {
        println!("{line}");
    }
}

fn main() {
    println!("{HEAD}");
    print_sample(100, 20_000, |sink| worlds::marked_cases(sink));
    for world in &worlds::SMALL {
        print_sample(10, 20_000, |sink| world.calls(sink));
    }
    print_sample(30, 20_000, |sink| worlds::histories(100, &mut Random(3), sink));
    print_sample(30, 2_000, |sink| worlds::damaged_inputs(1000, &mut Random(4), sink));
    print_sample(12, 4_000, |sink| worlds::around_limits(200, &mut Random(5), sink));
    print_sample(1, 40_000, |sink| worlds::around_limits(20, &mut Random(6), sink));
}
