//! The proved package through the symbols that C links.

use crate::calls::Call;
use second::net::{Net, SLOTS};

#[repr(C)]
#[derive(Clone, Copy)]
struct Thread {
    place: u8,
    position: u16,
    controller: u8,
    pass: u16,
}

/// The record as `crates/rules/src/net.rt` lays it out.
#[repr(C)]
#[derive(Clone)]
pub struct Record {
    n: u8,
    trust: [u8; 256],
    policies: [u8; 512],
    threads: [Thread; SLOTS],
    places: [u8; 3072],
    last: u16,
}

#[repr(C)]
struct Shown {
    present: u8,
    value: u16,
}

#[repr(C)]
struct Answer {
    number: u8,
    over: u8,
    fields: [Shown; 4],
}

extern "C" {
    fn diverter_set_up(net: &mut Record, bytes: *const u8, length: usize) -> Answer;
    fn diverter_launch(net: &mut Record, at: u8, bytes: *const u8, length: usize) -> Answer;
    fn diverter_step(net: &mut Record, slot: usize) -> Answer;
}

impl From<&Net> for Record {
    fn from(net: &Net) -> Record {
        Record {
            n: net.n,
            trust: net.trust,
            policies: net.policies,
            threads: net.threads.map(|thread| Thread {
                place: thread.place,
                position: thread.position,
                controller: thread.controller,
                pass: thread.pass,
            }),
            places: net.places,
            last: net.last,
        }
    }
}

/// One call, and its reply's number and what was passed over.
pub fn make(record: &mut Record, call: &Call) -> (u8, u8) {
    // The record is whole, and the bytes are lent for the call.
    let answer = unsafe {
        match call {
            Call::SetUp(bytes) => diverter_set_up(record, bytes.as_ptr(), bytes.len()),
            Call::Launch(at, bytes) => diverter_launch(record, *at, bytes.as_ptr(), bytes.len()),
            Call::Step(slot) => diverter_step(record, *slot),
        }
    };
    (answer.number, answer.over)
}
