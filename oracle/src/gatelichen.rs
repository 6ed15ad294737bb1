//! The library for safe Rust: the calls of `include/gatelichen.h`, each over slices. Rust's references keep the rules that the
//! header asks of a caller, so nothing here can go wrong whatever is passed.

use crate::calls::{Call, Name};

/// A call's answer: the refusal number, and the length (or count) where it is 0.
#[derive(Clone, Copy, Debug, PartialEq, Eq)]
pub struct Reply {
    pub number: u32,
    pub length: u32,
}

impl From<u64> for Reply {
    fn from(answer: u64) -> Reply {
        Reply { number: (answer >> 32) as u32, length: answer as u32 }
    }
}

mod c {
    extern "C" {
        pub fn gatelichen_check(a: *const u8, a_len: usize) -> u64;
        pub fn gatelichen_empty(out: *mut u8, out_len: usize) -> u64;
        pub fn gatelichen_add(
            a: *const u8, a_len: usize, actor: u32, counter: u64, members: *const u32, count: usize, out: *mut u8, out_len: usize,
        ) -> u64;
        pub fn gatelichen_remove(
            a: *const u8, a_len: usize, clock: *const u8, clock_len: usize, members: *const u32, count: usize, out: *mut u8,
            out_len: usize,
        ) -> u64;
        pub fn gatelichen_merge(
            a: *const u8, a_len: usize, b: *const u8, b_len: usize, out: *mut u8, out_len: usize,
        ) -> u64;
        pub fn gatelichen_reset(
            a: *const u8, a_len: usize, clock: *const u8, clock_len: usize, out: *mut u8, out_len: usize,
        ) -> u64;
        pub fn gatelichen_contains(a: *const u8, a_len: usize, member: u32, out: *mut u8, out_len: usize) -> u64;
        pub fn gatelichen_read(a: *const u8, a_len: usize, out: *mut u8, out_len: usize) -> u64;
        pub fn gatelichen_clock(a: *const u8, a_len: usize, out: *mut u8, out_len: usize) -> u64;
        pub fn gatelichen_validate_add(
            a: *const u8, a_len: usize, actor: u32, counter: u64, members: *const u32, count: usize, out: *mut u8, out_len: usize,
        ) -> u64;
        pub fn gatelichen_validate_remove(
            a: *const u8, a_len: usize, clock: *const u8, clock_len: usize, members: *const u32, count: usize,
        ) -> u64;
        pub fn gatelichen_validate_merge(
            a: *const u8, a_len: usize, b: *const u8, b_len: usize, out: *mut u8, out_len: usize,
        ) -> u64;
    }
}

/// Whether the bytes are a well-formed image.
pub fn check(image: &[u8]) -> Reply {
    unsafe { c::gatelichen_check(image.as_ptr(), image.len()) }.into()
}

/// Writes the empty replica.
pub fn empty(out: &mut [u8]) -> Reply {
    unsafe { c::gatelichen_empty(out.as_mut_ptr(), out.len()) }.into()
}

/// Adds the members under the dot.
pub fn add(image: &[u8], actor: u32, counter: u64, members: &[u32], out: &mut [u8]) -> Reply {
    let (i, m, o) = (image.as_ptr(), members.as_ptr(), out.as_mut_ptr());
    unsafe { c::gatelichen_add(i, image.len(), actor, counter, m, members.len(), o, out.len()) }.into()
}

/// Removes what the clock covers of the members.
pub fn remove(image: &[u8], clock: &[u8], members: &[u32], out: &mut [u8]) -> Reply {
    let (i, c, m, o) = (image.as_ptr(), clock.as_ptr(), members.as_ptr(), out.as_mut_ptr());
    unsafe { c::gatelichen_remove(i, image.len(), c, clock.len(), m, members.len(), o, out.len()) }.into()
}

/// Merges two replicas.
pub fn merge(a: &[u8], b: &[u8], out: &mut [u8]) -> Reply {
    unsafe { c::gatelichen_merge(a.as_ptr(), a.len(), b.as_ptr(), b.len(), out.as_mut_ptr(), out.len()) }.into()
}

/// Forgets what the clock covers.
pub fn reset(image: &[u8], clock: &[u8], out: &mut [u8]) -> Reply {
    let (i, c, o) = (image.as_ptr(), clock.as_ptr(), out.as_mut_ptr());
    unsafe { c::gatelichen_reset(i, image.len(), c, clock.len(), o, out.len()) }.into()
}

/// Whether the member is there (length 1 or 0); writes its clock.
pub fn contains(image: &[u8], member: u32, out: &mut [u8]) -> Reply {
    unsafe { c::gatelichen_contains(image.as_ptr(), image.len(), member, out.as_mut_ptr(), out.len()) }.into()
}

/// Writes the members; the length is how many.
pub fn read(image: &[u8], out: &mut [u8]) -> Reply {
    unsafe { c::gatelichen_read(image.as_ptr(), image.len(), out.as_mut_ptr(), out.len()) }.into()
}

/// Writes the replica's clock.
pub fn clock(image: &[u8], out: &mut [u8]) -> Reply {
    unsafe { c::gatelichen_clock(image.as_ptr(), image.len(), out.as_mut_ptr(), out.len()) }.into()
}

/// Whether the add's dot leaves no gap; writes the gap.
pub fn validate_add(image: &[u8], actor: u32, counter: u64, members: &[u32], out: &mut [u8]) -> Reply {
    let (i, m, o) = (image.as_ptr(), members.as_ptr(), out.as_mut_ptr());
    unsafe { c::gatelichen_validate_add(i, image.len(), actor, counter, m, members.len(), o, out.len()) }.into()
}

/// Whether a remove's arguments are good.
pub fn validate_remove(image: &[u8], clock: &[u8], members: &[u32]) -> Reply {
    let (i, c, m) = (image.as_ptr(), clock.as_ptr(), members.as_ptr());
    unsafe { c::gatelichen_validate_remove(i, image.len(), c, clock.len(), m, members.len()) }.into()
}

/// Whether no dot is spent on two members; writes the first that is.
pub fn validate_merge(a: &[u8], b: &[u8], out: &mut [u8]) -> Reply {
    unsafe { c::gatelichen_validate_merge(a.as_ptr(), a.len(), b.as_ptr(), b.len(), out.as_mut_ptr(), out.len()) }.into()
}

/// Makes the call on these inputs.
pub fn run(name: Name, image: &[u8], other: &[u8], number: u32, counter: u64, members: &[u32], out: &mut [u8]) -> Reply {
    match name {
        Name::Check => check(image),
        Name::Empty => empty(out),
        Name::Add => add(image, number, counter, members, out),
        Name::Remove => remove(image, other, members, out),
        Name::Merge => merge(image, other, out),
        Name::Reset => reset(image, other, out),
        Name::Contains => contains(image, number, out),
        Name::Read => read(image, out),
        Name::Clock => clock(image, out),
        Name::ValidateAdd => validate_add(image, number, counter, members, out),
        Name::ValidateRemove => validate_remove(image, other, members),
        Name::ValidateMerge => validate_merge(image, other, out),
    }
}

/// Makes the call.
pub fn run_call(call: &Call, out: &mut [u8]) -> Reply {
    run(call.name, &call.image, &call.other, call.number, call.counter, &call.members, out)
}
