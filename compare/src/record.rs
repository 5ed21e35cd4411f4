//! The record as C lays it out, in bytes, and as the second program has it.

use second::net::{Net, Thread, PLACES, PLACE_LENGTH, SLOTS};

pub const SIZE: usize = 4356;
pub const N: usize = 0;
pub const TRUST: usize = 1;
pub const POLICIES: usize = 257;
pub const THREADS: usize = 770;
pub const PLACES_AT: usize = 1282;
pub const LAST: usize = 4354;

pub const THREAD_SIZE: usize = 8;
pub const PLACE: usize = 0;
pub const POSITION: usize = 2;
pub const CONTROLLER: usize = 4;
pub const PASS: usize = 6;

pub type Bytes = [u8; SIZE];

/// Padding gets the filler: nothing may hang on it.
pub fn bytes_of(net: &Net, filler: u8) -> Bytes {
    let mut bytes = [filler; SIZE];
    bytes[N] = net.n;
    bytes[TRUST..TRUST + net.trust.len()].copy_from_slice(&net.trust);
    bytes[POLICIES..POLICIES + net.policies.len()].copy_from_slice(&net.policies);
    let slots = bytes[THREADS..PLACES_AT].chunks_exact_mut(THREAD_SIZE);
    for (slot, thread) in slots.zip(&net.threads) {
        slot[PLACE] = thread.place;
        slot[POSITION..POSITION + 2].copy_from_slice(&thread.position.to_le_bytes());
        slot[CONTROLLER] = thread.controller;
        slot[PASS..PASS + 2].copy_from_slice(&thread.pass.to_le_bytes());
    }
    bytes[PLACES_AT..LAST].copy_from_slice(&net.places);
    bytes[LAST..].copy_from_slice(&net.last.to_le_bytes());
    bytes
}

pub fn net_of(bytes: &Bytes) -> Net {
    let mut net = Net::new();
    net.n = bytes[N];
    net.trust.copy_from_slice(&bytes[TRUST..POLICIES]);
    net.policies
        .copy_from_slice(&bytes[POLICIES..POLICIES + 512]);
    for (slot, thread) in net.threads.iter_mut().enumerate() {
        *thread = thread_of(bytes, slot);
    }
    net.places.copy_from_slice(&bytes[PLACES_AT..LAST]);
    net.last = word(bytes, LAST);
    net
}

fn thread_of(bytes: &Bytes, slot: usize) -> Thread {
    let at = THREADS + slot * THREAD_SIZE;
    Thread {
        place: bytes[at + PLACE],
        position: word(bytes, at + POSITION),
        controller: bytes[at + CONTROLLER],
        pass: word(bytes, at + PASS),
    }
}

fn word(bytes: &Bytes, at: usize) -> u16 {
    u16::from_le_bytes([bytes[at], bytes[at + 1]])
}

/// One byte before the threads, and in each thread one behind its place and one behind its controller.
pub fn is_padding(at: usize) -> bool {
    let behind_policies = at == THREADS - 1;
    let in_threads = (THREADS..PLACES_AT).contains(&at);
    let in_thread = at.wrapping_sub(THREADS) % THREAD_SIZE;
    behind_policies || (in_threads && (in_thread == PLACE + 1 || in_thread == CONTROLLER + 1))
}

/// The first byte, other than padding, in which the two differ.
pub fn first_difference(one: &Bytes, other: &Bytes) -> Option<usize> {
    (0..SIZE).find(|&at| one[at] != other[at] && !is_padding(at))
}

/// The field in which a byte stands.
pub fn field_at(at: usize) -> String {
    match at {
        N => "n".to_string(),
        TRUST..=256 => format!("trust[{}]", at - TRUST),
        POLICIES..=768 => format!("policies[{}]", at - POLICIES),
        769..=1281 => {
            let slot = at.saturating_sub(THREADS) / THREAD_SIZE;
            let field = ["place", "position", "controller", "pass"];
            format!(
                "threads[{}].{}",
                slot,
                field[at.saturating_sub(THREADS) % THREAD_SIZE / 2]
            )
        }
        PLACES_AT..=4353 => format!("places[{}]", at - PLACES_AT),
        _ => "last".to_string(),
    }
}

const _: () = assert!(THREADS + SLOTS * THREAD_SIZE == PLACES_AT);
const _: () = assert!(PLACES_AT + PLACES * PLACE_LENGTH == LAST);
