//! The proved package through the symbols that C links, with what a caller lends it between guards.

use crate::record::{self, Bytes, SIZE};
use second::net::Net;
use second::reply::Reply;

#[repr(C)]
#[derive(Clone, Copy)]
pub struct Field {
    pub present: u8,
    pub value: u16,
}

#[repr(C)]
#[derive(Clone, Copy)]
pub struct Answer {
    pub number: u8,
    pub over: u8,
    pub pass: Field,
    pub controller: Field,
    pub name: Field,
    pub fresh: Field,
}

extern "C" {
    fn diverter_set_up(net: *mut u8, bytes: *const u8, length: usize) -> Answer;
    fn diverter_launch(net: *mut u8, at: u8, bytes: *const u8, length: usize) -> Answer;
    fn diverter_step(net: *mut u8, slot: usize) -> Answer;
}

/// A call with all that it lends but the record.
#[derive(Clone, Debug)]
pub enum Call {
    SetUp(Vec<u8>),
    Launch(u8, Vec<u8>),
    Step(usize),
}

impl Call {
    pub fn bytes(&self) -> &[u8] {
        match self {
            Call::SetUp(bytes) | Call::Launch(_, bytes) => bytes,
            Call::Step(_) => &[],
        }
    }
}

/// What an answer says, one number after the other, so that two are held to each other field by field.
pub const TOLD: [&str; 10] = [
    "number",
    "over",
    "pass.present",
    "pass.value",
    "controller.present",
    "controller.value",
    "name.present",
    "name.value",
    "fresh.present",
    "fresh.value",
];
pub type Told = [u16; TOLD.len()];

impl Answer {
    pub fn told(&self) -> Told {
        let mut told = [0; TOLD.len()];
        told[0] = u16::from(self.number);
        told[1] = u16::from(self.over);
        let fields = [self.pass, self.controller, self.name, self.fresh];
        for (pair, field) in told[2..].chunks_exact_mut(2).zip(fields) {
            pair[0] = u16::from(field.present);
            pair[1] = field.value;
        }
        told
    }
}

/// The same of the second program's reply: where a field is absent, mark and value are 0.
pub fn told_of(reply: &Reply) -> Told {
    let mut told = [0; TOLD.len()];
    told[0] = u16::from(reply.number);
    told[1] = u16::from(reply.passed_over);
    let controller = reply.controller.map(u16::from);
    let fields = [
        reply.pass,
        controller,
        reply.name.map(u16::from),
        reply.new_pass,
    ];
    for (pair, field) in told[2..].chunks_exact_mut(2).zip(fields) {
        pair[0] = u16::from(field.is_some());
        pair[1] = field.unwrap_or(0);
    }
    told
}

const GUARD: u8 = 0xC5;

/// The record stands at an address that only 2 divides, since C promises no more of it.
#[repr(C, align(64))]
struct Guarded {
    before: [u8; 62],
    record: Bytes,
    after: [u8; 62],
}

pub struct Proved {
    guarded: Box<Guarded>,
    lent: Vec<u8>,
}

impl Proved {
    pub fn new() -> Proved {
        Proved {
            guarded: Box::new(Guarded {
                before: [GUARD; 62],
                record: [0; SIZE],
                after: [GUARD; 62],
            }),
            lent: Vec::new(),
        }
    }

    pub fn record(&self) -> &Bytes {
        &self.guarded.record
    }

    /// The package gets this record, whatever it is.
    pub fn adopt(&mut self, net: &Net, filler: u8) {
        self.guarded.record = record::bytes_of(net, filler);
    }

    pub fn call(&mut self, call: &Call) -> Answer {
        self.lend(call.bytes());
        let bytes = self.lent[LENT_FROM..].as_ptr();
        let net = self.guarded.record.as_mut_ptr();
        // The record is whole, the bytes are lent for the call and stand elsewhere: all that the header asks.
        unsafe {
            match call {
                Call::SetUp(given) => diverter_set_up(net, bytes, given.len()),
                Call::Launch(at, given) => diverter_launch(net, *at, bytes, given.len()),
                Call::Step(slot) => diverter_step(net, *slot),
            }
        }
    }

    fn lend(&mut self, bytes: &[u8]) {
        self.lent.clear();
        self.lent.extend([GUARD; LENT_FROM]);
        self.lent.extend(bytes);
        self.lent.extend([GUARD; LENT_FROM]);
    }

    /// Whether the lent bytes and what stands around them and around the record are what they were.
    pub fn kept_to_its_own(&self, bytes: &[u8]) -> bool {
        let is_guard = |bytes: &[u8]| bytes.iter().all(|&byte| byte == GUARD);
        let (before, rest) = self.lent.split_at(LENT_FROM);
        let (given, after) = rest.split_at(bytes.len());
        let around = [before, after, &self.guarded.before, &self.guarded.after];
        given == bytes && around.iter().all(|bytes| is_guard(bytes))
    }
}

/// How many guarding bytes stand at either side of the lent ones.
const LENT_FROM: usize = 16;
