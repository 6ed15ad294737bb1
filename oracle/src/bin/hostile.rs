//! Random and damaged bytes at every call. Words: where inputs and outputs lie, `heap` (a block of the exact size each, for
//! valgrind) or `pages` (a page that may not be touched right after each), and how many calls.
//! Fails if a call answers a number that isn't its own, touches a byte that it may not, takes a bad image or refuses a good one,
//! or writes an image that isn't well-formed. A read past an input's end ends the program (pages) or is valgrind's to report (heap).

use oracle::calls::Name;
use oracle::gatelichen::{self, Reply};
use oracle::image::{decode, decode_clock};
use oracle::random::Random;
use oracle::worlds;

extern "C" {
    fn mmap(address: *mut u8, length: usize, protection: i32, flags: i32, file: i32, offset: i64) -> *mut u8;
    fn mprotect(address: *mut u8, length: usize, protection: i32) -> i32;
}

const PAGE: usize = 4096;
const SPACE: usize = 8 * PAGE;

/// A place that lends its last bytes. `fence` has a forbidden page after it; `heap` is a block of the asked size.
enum Place {
    Fence(*mut u8),
    Heap(Box<[u32]>, Box<[u8]>),
}

impl Place {
    fn new(pages: bool) -> Place {
        if !pages {
            return Place::Heap(Box::new([]), Box::new([]));
        }
        // Read and write, private, of no file.
        let start = unsafe { mmap(std::ptr::null_mut(), SPACE + PAGE, 3, 0x22, -1, 0) };
        assert!(start as isize != -1 && unsafe { mprotect(start.add(SPACE), PAGE, 0) } == 0);
        Place::Fence(start)
    }

    fn bytes(&mut self, content: &[u8]) -> &mut [u8] {
        match self {
            Place::Heap(_, block) => {
                *block = content.into();
                block
            }
            Place::Fence(start) => {
                let lent = unsafe { std::slice::from_raw_parts_mut(start.add(SPACE - content.len()), content.len()) };
                lent.copy_from_slice(content);
                lent
            }
        }
    }

    fn numbers(&mut self, content: &[u32]) -> &[u32] {
        match self {
            Place::Heap(block, _) => {
                *block = content.into();
                block
            }
            Place::Fence(start) => {
                let first = unsafe { start.add(SPACE) }.cast::<u32>().wrapping_sub(content.len());
                let lent = unsafe { std::slice::from_raw_parts_mut(first, content.len()) };
                lent.copy_from_slice(content);
                lent
            }
        }
    }
}

/// The numbers of docs/RULES.md, 2, that the call may give.
fn numbers(name: Name) -> &'static [u32] {
    match name {
        Name::Check => &[0, 1],
        Name::Empty => &[0, 10],
        Name::Add => &[0, 1, 4, 6, 7, 10],
        Name::Remove => &[0, 1, 3, 4, 8, 9, 10],
        Name::Merge => &[0, 1, 2, 6, 7, 8, 9, 10],
        Name::Reset => &[0, 1, 3, 9, 10],
        Name::Contains | Name::Read | Name::Clock => &[0, 1, 10],
        Name::ValidateAdd => &[0, 1, 4, 11],
        Name::ValidateRemove => &[0, 1, 3, 4],
        Name::ValidateMerge => &[0, 1, 2, 12],
    }
}

/// An image as it comes: now good, now with faults, now two glued together, now anything.
fn hostile_image(images: &[Vec<u8>], random: &mut Random) -> Vec<u8> {
    let mut bytes = images[random.below(images.len())].clone();
    match random.below(8) {
        0 => {
            let length = random.below(400);
            bytes = (0..length).map(|_| random.next() as u8).collect();
        }
        1 => {
            let other = &images[random.below(images.len())];
            bytes.truncate(random.below(bytes.len() + 1));
            bytes.extend(&other[random.below(other.len())..]);
        }
        2 => bytes.fill(random.pick(&[0, 1, 0xff])),
        3..=5 => (0..random.from_to(1, 3)).for_each(|_| worlds::damage_bytes(&mut bytes, random)),
        _ => {}
    }
    // Often the total is made true again, so that the fault lies deeper.
    if bytes.len() >= 8 && random.once_in(2) {
        let total = (bytes.len() as u32).to_le_bytes();
        bytes[4..8].copy_from_slice(&total);
    }
    bytes
}

/// A clock argument: the clock of an image, with faults or without.
fn hostile_clock(images: &[Vec<u8>], random: &mut Random) -> Vec<u8> {
    let image = &images[random.below(images.len())];
    let end = image.len().min(28 + 12 * random.below(18));
    let mut bytes = image[image.len().min(24)..end].to_vec();
    if !random.once_in(4) && bytes.len() >= 4 {
        let count = (bytes.len() as u32 - 4) / 12;
        bytes[0..4].copy_from_slice(&count.to_le_bytes());
    }
    if random.once_in(3) {
        worlds::damage_bytes(&mut bytes, random);
    }
    bytes
}

/// What is wrong with a reply, if anything.
fn fault(name: Name, image: &[u8], other: &[u8], list: usize, before: &[u8], after: &[u8], reply: Reply) -> Option<&'static str> {
    let two = matches!(name, Name::Merge | Name::ValidateMerge);
    let clock = matches!(name, Name::Remove | Name::Reset | Name::ValidateRemove);
    let listed = matches!(name, Name::Add | Name::Remove | Name::ValidateAdd | Name::ValidateRemove);
    let refusal = match () {
        _ if name == Name::Empty => None,
        _ if decode(image).is_none() => Some(1),
        _ if two && decode(other).is_none() => Some(2),
        _ if clock && decode_clock(other).is_none() => Some(3),
        _ if listed && list > 64 => Some(4),
        _ => None,
    };
    let written = match (reply.number, name) {
        (0, Name::Contains) if !after.is_empty() => 4 + 12 * after[0] as usize,
        (0, Name::Read) => 4 * reply.length as usize,
        (0, _) => reply.length as usize,
        (11, _) if after.len() >= 16 => 16,
        (12, _) if after.len() >= 20 => 20,
        _ => 0,
    };
    let makes_image = matches!(name, Name::Empty | Name::Add | Name::Remove | Name::Merge | Name::Reset);
    match () {
        _ if !numbers(name).contains(&reply.number) => Some("a number that isn't the call's"),
        _ if refusal.is_some_and(|n| n != reply.number) => Some("a bad input taken"),
        _ if refusal.is_none() && (1..=4).contains(&reply.number) => Some("a good input refused"),
        _ if reply.number != 0 && reply.length != 0 => Some("a length beside a refusal"),
        _ if written > after.len() => Some("a length over the output's"),
        _ if before[written..] != after[written..] => Some("a later byte changed"),
        _ if reply.number == 0 && makes_image && decode(&after[..written]).is_none() => Some("a result that isn't well-formed"),
        _ => None,
    }
}

fn main() {
    let words: Vec<String> = std::env::args().collect();
    let (pages, calls) = match &words[1..] {
        [place, calls] => (place == "pages", calls.parse::<u64>().expect("how many calls")),
        _ => panic!("words: heap or pages, how many calls"),
    };
    let mut random = Random(7);
    let images = worlds::images(if pages { 200 } else { 4 }, &mut random);
    let [mut first, mut second, mut list, mut output] = [(); 4].map(|_| Place::new(pages));
    let mut granted = 0;
    for call in 0..calls {
        let name = random.pick(&Name::ALL);
        let image = hostile_image(&images, &mut random);
        let other = match name {
            Name::Merge | Name::ValidateMerge => hostile_image(&images, &mut random),
            _ => hostile_clock(&images, &mut random),
        };
        let length = random.pick(&[0, 1, 2, 32, 33, 63, 64, 65, 70]);
        let members: Vec<u32> = (0..length).map(|_| random.below(80) as u32).collect();
        let (actor, counter) = (random.pick(&[0, 1, 2, 3, u32::MAX]), random.pick(&[0, 1, 2, 3, 4, 105, u64::MAX]));
        let room = random.pick(&[0, 3, 15, 16, 19, 20, 27, 28, 100, 196, 256, 18268, 20000]);
        let before = vec![random.next() as u8; room];
        let out = output.bytes(&before);
        let (lent_image, lent_other) = (first.bytes(&image), second.bytes(&other));
        let reply = gatelichen::run(name, lent_image, lent_other, actor, counter, list.numbers(&members), out);
        granted += (reply.number == 0) as u64;
        let changed = (*lent_image != *image || *lent_other != *other).then_some("an input changed");
        if let Some(fault) = changed.or_else(|| fault(name, &image, &other, members.len(), &before, out, reply)) {
            println!("call {call}: {}: {fault}: {reply:?}", name.text());
            std::process::exit(1);
        }
    }
    println!("{calls} calls, {granted} granted, no fault");
}
