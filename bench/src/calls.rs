//! The same call, again and again, each time on a fresh copy of the record.

use crate::proved;
use second::envelope::{LENGTH_BYTES, LONGEST_SET_UP};
use second::net::Net;
use std::hint::black_box;

/// A call with all that it lends but the record.
pub enum Call {
    SetUp(&'static [u8]),
    Launch(u8, &'static [u8]),
    Step(usize),
}

/// At a page's beginning: how many instructions `memcpy` takes depends on where things stand, and so neither the record
/// nor the stack below it nor the bytes may move with what else is in memory.
#[repr(align(4096))]
struct Page<T>(T);

/// The bytes, where they are lent from, up to the program's end.
pub fn lent(bytes: &[u8]) -> &'static [u8] {
    let page = Box::leak(Box::new(Page([0; LENGTH_BYTES + LONGEST_SET_UP])));
    page.0[..bytes.len()].copy_from_slice(bytes);
    &page.0[..bytes.len()]
}

/// One call of the second program, and its reply's number and what was passed over.
pub fn of_second(net: &mut Net, call: &Call) -> (u8, u8) {
    let reply = match call {
        Call::SetUp(bytes) => net.set_up(bytes),
        Call::Launch(at, bytes) => net.launch(*at, bytes),
        Call::Step(slot) => net.step(*slot),
    };
    (reply.number, reply.passed_over)
}

/// No call: what is left is the copy and the loop.
pub fn none<R>(_record: &mut R, _call: &Call) -> (u8, u8) {
    (0, 0)
}

/// What is run, and on which side's record.
#[derive(Clone, Copy)]
pub enum Side {
    Proved,
    ProvedCopies,
    Second,
    SecondCopies,
}

impl Side {
    pub fn named(name: &str) -> Option<Side> {
        Some(match name {
            "proved" => Side::Proved,
            "proved-copies" => Side::ProvedCopies,
            "second" => Side::Second,
            "second-copies" => Side::SecondCopies,
            _ => return None,
        })
    }

    /// Makes the call `times` times, and tells what the last one said; nothing where none is made.
    pub fn run(self, times: u32, net: &Net, call: &Call) -> Option<(u8, u8)> {
        let net = Page(net.clone());
        let record = Page(proved::Record::from(&net.0));
        match self {
            Side::Proved => Some(repeat(times, &record.0, call, proved::make)),
            Side::Second => Some(repeat(times, &net.0, call, of_second)),
            Side::ProvedCopies => {
                repeat(times, &record.0, call, none);
                None
            }
            Side::SecondCopies => {
                repeat(times, &net.0, call, none);
                None
            }
        }
    }
}

/// Takes a function's address, so that the loop is the same code with a call as with none.
#[inline(never)]
fn repeat<R: Clone>(
    times: u32,
    record: &R,
    call: &Call,
    make: fn(&mut R, &Call) -> (u8, u8),
) -> (u8, u8) {
    let mut lent = Page(record.clone());
    let mut said = (0, 0);
    for _ in 0..times {
        lent.0.clone_from(black_box(record));
        said = black_box(make)(&mut lent.0, call);
    }
    said
}
