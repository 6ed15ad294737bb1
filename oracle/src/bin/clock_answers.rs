//! Writes stored answers of the crate for the calls of dots, clocks and contexts, which the C boundary doesn't have: one a line,
//! in the columns of `answers`.

use crdts::ctx::ReadCtx;
use crdts::{CmRDT, CvRDT, Dot, OrdDot, ResetRemove, VClock};
use oracle::calls::{hex, Answer};
use oracle::image::{decode_clock, encode_clock, encode_dots, Clock, ACTORS};
use oracle::random::Random;
use std::cmp::Ordering;

const HEAD: &str = "\
# Answers of the Rust crate crdts (7.2.0 as Debian packages it, the same code as 7.3.2), written by oracle/write-answers.
# A line is a call with its answer, fields parted by one space, each in hex, or - for what is empty:
#   name first second actor counter - room refusal length output
# first, second: clocks in the image's form, or two dots (actor, counter: 12 bytes). actor, counter: the dot, or the actor.
# room: how many bytes the lent output of clock_display has. refusal: document 01's number.
# length: of the output; for a comparison 0 Less, 1 Equal, 2 Greater, 3 none; for a yes or no 1 or 0.
# output: the clock; for clock_get the counter; for an inc the dot; for clock_validate_op start and end; for clock_display the
# text; for derive_add_ctx the dot, then the clock.";

fn dot_bytes(dot: Dot<u32>) -> Vec<u8> {
    [&dot.actor.to_le_bytes()[..], &dot.counter.to_le_bytes()[..]].concat()
}

fn value(length: u32) -> Answer {
    Answer { number: 0, length, bytes: Vec::new() }
}

fn order(order: Option<Ordering>) -> Answer {
    value(order.map_or(3, |o| (o as i8 + 1) as u32))
}

/// A clock that was made: 6 if it has too many actors.
fn made(clock: VClock<u32>) -> Answer {
    match clock.dots.len() {
        0..=ACTORS => Answer::written(encode_clock(&clock.dots)),
        _ => Answer::refused(6),
    }
}

/// A call: its name, whether it takes the second clock, its answer.
type Answered = (&'static str, bool, Answer);

/// The answers of every call on these clocks and this dot.
fn on_clocks(a: &VClock<u32>, b: &VClock<u32>, dot: Dot<u32>) -> Vec<Answered> {
    let changed = |change: &dyn Fn(&mut VClock<u32>)| {
        let mut clock = a.clone();
        change(&mut clock);
        made(clock)
    };
    // Where a successor is asked of the largest counter, the crate wraps: docs/DIFFERENCES.md.
    let largest = a.get(&dot.actor) == u64::MAX;
    let next = if largest { Answer::refused(5) } else { Answer::written(dot_bytes(a.inc(dot.actor))) };
    let gap = match a.validate_op(&dot) {
        Err(range) if !largest => {
            let bytes = [range.counter_range.start.to_le_bytes(), range.counter_range.end.to_le_bytes()].concat();
            Answer { number: 11, length: 0, bytes }
        }
        _ => Answer::written(Vec::new()),
    };
    let ctx = ReadCtx { add_clock: a.clone(), rm_clock: b.clone(), val: () }.derive_add_ctx(dot.actor);
    let derived = match made(ctx.clock) {
        _ if largest => Answer::refused(5),
        clock if clock.number == 0 => Answer::written([dot_bytes(ctx.dot), clock.bytes].concat()),
        refused => refused,
    };
    vec![
        ("clock_get", false, Answer::written(a.get(&dot.actor).to_le_bytes().to_vec())),
        ("clock_is_empty", false, value(a.is_empty() as u32)),
        ("clock_inc", false, next),
        ("clock_apply", false, changed(&|clock| clock.apply(dot))),
        ("clock_validate_op", false, gap),
        ("clock_display", false, Answer::written(a.to_string().into_bytes())),
        ("clock_merge", true, changed(&|clock| clock.merge(b.clone()))),
        ("clock_reset_remove", true, changed(&|clock| clock.reset_remove(b))),
        ("clock_clone_without", true, made(a.clone_without(b))),
        ("clock_intersection", true, made(VClock::intersection(a, b))),
        ("clock_glb", true, changed(&|clock| clock.glb(b))),
        ("clock_compare", true, order(a.partial_cmp(b))),
        ("clock_concurrent", true, value(a.concurrent(b) as u32)),
        ("derive_add_ctx", true, derived),
    ]
}

/// A clock in bytes: few actors or many, now and then with a zero counter, an actor twice or out of order.
fn clock(random: &mut Random) -> Vec<u8> {
    let (count, of) = random.pick(&[(0, 4), (1, 4), (2, 4), (3, 4), (3, 4), (15, 17), (16, 18)]);
    let mut dots: Vec<(u32, u64)> = (0..of).map(|actor| (actor, 0)).collect();
    while dots.len() > count {
        dots.remove(random.below(dots.len()));
    }
    for dot in &mut dots {
        dot.1 = random.pick(&[1, 1, 1, 2, 2, 3, 3, u64::MAX - 1, u64::MAX]);
    }
    if random.once_in(30) && dots.len() > 1 {
        dots[1].0 = dots[0].0;
    }
    if random.once_in(30) && !dots.is_empty() {
        dots[0].1 = 0;
    }
    if random.once_in(30) {
        dots.reverse();
    }
    encode_dots(&dots)
}

fn print(name: &str, first: &[u8], second: &[u8], dot: Dot<u32>, room: usize, answer: &Answer) {
    let answer = answer.in_room(room).line();
    println!("{name} {} {} {:x} {:x} - {room:x} {answer}", hex(first), hex(second), dot.actor, dot.counter);
}

fn main() {
    println!("{HEAD}");
    let mut random = Random(8);
    for _ in 0..120 {
        let first = clock(&mut random);
        let second = if random.once_in(10) { first.clone() } else { clock(&mut random) };
        let counter = random.pick(&[0, 1, 2, 3, 4, 5, u64::MAX - 1, u64::MAX]);
        let dot = Dot::new(random.pick(&[0, 1, 2, 3, 16, 17, u32::MAX]), counter);
        let (a, b) = (decode_clock(&first), decode_clock(&second));
        let clock = |dots: &Option<Clock>| VClock { dots: dots.clone().unwrap_or_default() };
        for (name, two, granted) in on_clocks(&clock(&a), &clock(&b), dot) {
            let answer = if a.is_none() || (two && b.is_none()) { Answer::refused(3) } else { granted };
            let enough = answer.bytes.len();
            let room = if name == "clock_display" { random.pick(&[enough, 528, enough.saturating_sub(1)]) } else { enough };
            print(name, &first, if two { &second } else { &[] }, dot, room, &answer);
        }
        let other = Dot::new(random.pick(&[dot.actor, dot.actor, 0]), random.pick(&[dot.counter, 1, 2, u64::MAX]));
        let (first, second) = (dot_bytes(dot), dot_bytes(other));
        let next = if counter == u64::MAX { Answer::refused(5) } else { Answer::written(dot_bytes(dot.inc())) };
        print("dot_inc", &[], &[], dot, next.bytes.len(), &next);
        print("dot_compare", &first, &second, Dot::new(0, 0), 0, &order(dot.partial_cmp(&other)));
        let (one, two): (OrdDot<u32>, OrdDot<u32>) = (dot.into(), other.into());
        print("ord_dot_compare", &first, &second, Dot::new(0, 0), 0, &order(Some(one.cmp(&two))));
    }
}
