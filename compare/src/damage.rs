//! Damaged bytes and damaged records.

use crate::chance::Chance;
use second::net::{Net, Thread, PLACE_LENGTH, SLOTS};
use second::tree;

/// Flips, cuts, extra bytes; the length is put right again half the time, so that what stands inside is reached too.
pub fn bytes(chance: &mut Chance, mut bytes: Vec<u8>) -> Vec<u8> {
    for _ in 0..1 + chance.below(2) {
        let at = chance.below(bytes.len() + 1);
        match chance.below(6) {
            0 => bytes.truncate(at),
            1 => bytes.insert(at, chance.byte()),
            2 => bytes.extend((0..1 + at % 3).map(|_| 0)),
            3 if at < bytes.len() => bytes[at] ^= 1 << chance.below(8),
            4 if at < bytes.len() => {
                bytes[at] = chance.pick(&[0, 1, 2, 3, 4, 5, 15, 16, 31, 32, 33, 255])
            }
            5 if at < bytes.len() => drop(bytes.remove(at)),
            _ => {}
        }
    }
    head(chance, &mut bytes);
    bytes
}

fn head(chance: &mut Chance, bytes: &mut [u8]) {
    if bytes.len() < 3 {
        return;
    }
    let length = match chance.below(8) {
        0..=3 => (bytes.len() - 2) as u16,
        4 => chance.pick(&[0, 1, 2, 3, 385, 386, 770, 771, 65_535]),
        _ => return,
    };
    bytes[..2].copy_from_slice(&length.to_be_bytes());
}

/// A clause of soundness, and what breaks it in a sound record with a running thread and a free slot.
pub type Clause = (&'static str, fn(&mut Chance, &mut Net));

pub const CLAUSES: [Clause; 11] = [
    ("n above 16", |chance, net| {
        net.n = between(chance, 17, 255) as u8
    }),
    ("n below a thread's controller", |chance, net| {
        let controller = usize::from(running(chance, net).controller);
        net.n = between(chance, 0, controller - 16) as u8
    }),
    ("a trust byte above 2", |chance, net| {
        net.trust[between(chance, 0, 255)] = between(chance, 3, 255) as u8
    }),
    ("a free slot with a place", |chance, net| {
        free(chance, net).place = between(chance, 1, 255) as u8
    }),
    ("a free slot with a position", |chance, net| {
        free(chance, net).position = nonzero_word(chance)
    }),
    ("a free slot with a pass", |chance, net| {
        free(chance, net).pass = nonzero_word(chance)
    }),
    ("a place above 7", |chance, net| {
        running(chance, net).place = between(chance, 8, 255) as u8
    }),
    ("a controller of no net", |chance, net| {
        let behind_the_last = 16 + net.n;
        running(chance, net).controller = chance.pick(&[1, 15, behind_the_last, 32, 255])
    }),
    ("a position behind the place", |chance, net| {
        running(chance, net).position = between(chance, PLACE_LENGTH, 65_535) as u16
    }),
    ("a position without a program", |chance, net| {
        let bad = chance.pick(&FAULTS);
        let position = between(chance, 4, PLACE_LENGTH - bad.len());
        stand_at(chance, net, position, bad)
    }),
    ("a program that runs out of its place", |chance, net| {
        let cut = chance.pick(&CUTS);
        stand_at(chance, net, PLACE_LENGTH - cut.len(), cut)
    }),
];

/// Each way in which a byte can have no meaning.
const FAULTS: [&[u8]; 9] = [
    &[5],
    &[1, 16],
    &[4, 15, 0, 0],
    &[4, 32, 0, 0],
    &[4, 17, 33],
    &[4, 17, 1, 32, 1],
    &[4, 17, 1, 3, 0],
    &[4, 17, 2, 3, 1, 3, 1],
    &[2, 0, 3, 5],
];

const CUTS: [&[u8]; 8] = [
    &[1],
    &[1, 3],
    &[2, 0],
    &[3],
    &[4],
    &[4, 17],
    &[4, 17, 0],
    &[4, 17, 1, 3],
];

/// One of these numbers, the first and the last more often than the others.
fn between(chance: &mut Chance, first: usize, last: usize) -> usize {
    match chance.below(4) {
        0 => first,
        1 => last,
        _ => first + chance.below(last - first + 1),
    }
}

/// In its low byte or in its high one.
fn nonzero_word(chance: &mut Chance) -> u16 {
    (between(chance, 1, 255) as u16) << chance.pick(&[0, 8])
}

fn running<'a>(chance: &mut Chance, net: &'a mut Net) -> &'a mut Thread {
    some(chance, net, |thread| !thread.is_free())
}

fn free<'a>(chance: &mut Chance, net: &'a mut Net) -> &'a mut Thread {
    some(chance, net, Thread::is_free)
}

fn some<'a>(chance: &mut Chance, net: &'a mut Net, is_one: fn(&Thread) -> bool) -> &'a mut Thread {
    let threads = net.threads.iter_mut();
    let mut ones: Vec<_> = threads.filter(|thread| is_one(thread)).collect();
    let which = between(chance, 0, ones.len() - 1);
    ones.swap_remove(which)
}

/// A running thread is put before these bytes of its place.
fn stand_at(chance: &mut Chance, net: &mut Net, position: usize, bytes: &[u8]) {
    let thread = running(chance, net);
    thread.position = position as u16;
    let from = usize::from(thread.place) * PLACE_LENGTH + position;
    net.places[from..from + bytes.len()].copy_from_slice(bytes);
}

/// A record of chance that is sound more often than not, with threads in any slots.
pub fn record(chance: &mut Chance) -> Net {
    let mut net = Net::new();
    net.n = 1 + chance.below(16) as u8;
    net.trust
        .iter_mut()
        .for_each(|trust| *trust = chance.below(3) as u8);
    net.policies
        .iter_mut()
        .for_each(|count| *count = chance.pick(&[0, 1, 2, 254, 255]));
    for place in net.places.chunks_mut(PLACE_LENGTH) {
        let used = chance.below(PLACE_LENGTH + 1);
        like_a_tree(chance, &mut place[..used]);
    }
    let odds_of_gap = chance.pick(&[1_000, 20, 3]);
    for slot in 0..SLOTS {
        if !chance.one_in(odds_of_gap) {
            net.threads[slot] = thread(chance, &net);
        }
    }
    net.last = chance.pick(&[0, 9, 65_500, 65_535]);
    net
}

/// Mostly where a program can be read.
fn thread(chance: &mut Chance, net: &Net) -> Thread {
    let place = chance.below(8);
    let bytes = &net.places[place * PLACE_LENGTH..(place + 1) * PLACE_LENGTH];
    let mut position = chance.below(PLACE_LENGTH);
    while tree::read(bytes, position).is_err() && !chance.one_in(2_000) {
        position = chance.below(PLACE_LENGTH);
    }
    Thread {
        place: place as u8,
        position: position as u16,
        controller: 16 + chance.below(usize::from(net.n)) as u8,
        pass: net.last.wrapping_add(chance.below(80) as u16),
    }
}

/// Bytes that look like trees more often than chance alone would have it.
fn like_a_tree(chance: &mut Chance, bytes: &mut [u8]) {
    let noise = 2 + chance.below(100);
    for at in 0..bytes.len() {
        bytes[at] = if chance.one_in(noise) {
            chance.byte()
        } else if at > 0 && bytes[at - 1] == 4 {
            16 + chance.below(16) as u8
        } else {
            chance.below(5) as u8
        };
    }
}

/// Any byte in any field.
pub fn scribble(chance: &mut Chance, net: &mut Net) {
    let slot = chance.below(SLOTS);
    match chance.below(7) {
        0 => net.n = chance.byte(),
        1 => net.trust[chance.below(256)] = chance.byte(),
        2 => net.threads[slot].place = chance.byte(),
        3 => net.threads[slot].position = chance.word(),
        4 => net.threads[slot].controller = chance.byte(),
        5 => net.threads[slot].pass = chance.word(),
        _ => net.places[chance.below(3072)] = chance.byte(),
    }
}

/// A record of nothing but chance.
pub fn noise(chance: &mut Chance) -> Net {
    let mut bytes = [0; crate::record::SIZE];
    bytes.iter_mut().for_each(|byte| *byte = chance.byte());
    crate::record::net_of(&bytes)
}
