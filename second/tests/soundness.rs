//! Soundness: each clause broken one at a time, and what is sound though it looks odd.

mod common;

use common::*;
use second::net::{Net, Thread};

/// A net of two controllers with a thread in slot 0 and slot 5.
fn sound_net() -> Net {
    let mut net = net(&[&[UNKNOWN, UNKNOWN], &[UNKNOWN, UNKNOWN]], &[[0; 32]; 2]);
    launched(&mut net, 16, &[1, 3, 2, 0, 4, 17, 1, 3, 1, 1, 3, 0]);
    net.threads[5] = thread(0, 4, 17, 9);
    assert!(net.is_sound());
    net
}

fn broken(change: impl FnOnce(&mut Net)) {
    let mut net = sound_net();
    change(&mut net);
    assert!(!net.is_sound());
    // 99 comes before all else, also with no bytes, no such controller or no such slot.
    assert_refused(&mut net, 99, |net| net.launch(16, &[]));
    assert_refused(&mut net, 99, |net| launch(net, 16, &[0]));
    assert_refused(&mut net, 99, |net| launch(net, 0, &[0]));
    assert_refused(&mut net, 99, |net| net.step(0));
    assert_refused(&mut net, 99, |net| net.step(1));
    assert_refused(&mut net, 99, |net| net.step(usize::MAX));
    // Set-up takes any record.
    assert_refused(&mut net, 1, |net| net.set_up(&[]));
    assert_eq!(net.set_up(&set_up_bytes(&[&[GOOD]], &[[0; 32]])).number, 0);
    assert!(net.is_sound());
}

fn kept(change: impl FnOnce(&mut Net)) {
    let mut net = sound_net();
    change(&mut net);
    assert!(net.is_sound());
    assert_eq!(net.launch(16, &[]).number, 1);
    assert_eq!(net.step(64).number, 11);
}

#[test]
fn a_record_of_zeros_is_sound() {
    assert!(Net::new().is_sound());
}

#[test]
fn n_is_at_most_16() {
    kept(|net| net.n = 16);
    broken(|net| net.n = 17);
    broken(|net| net.n = 240);
    broken(|net| net.n = 255);
}

#[test]
fn trust_is_at_most_2_also_beyond_n() {
    for at in [0, 1, 2, 16, 17, 255] {
        kept(|net| net.trust[at] = BAD);
        broken(|net| net.trust[at] = 3);
        broken(|net| net.trust[at] = 255);
    }
}

#[test]
fn a_free_slot_is_zero() {
    for slot in [1, 63] {
        broken(|net| net.threads[slot].place = 1);
        broken(|net| net.threads[slot].position = 1);
        broken(|net| net.threads[slot].position = 256);
        broken(|net| net.threads[slot].pass = 1);
        broken(|net| net.threads[slot].pass = 256);
    }
}

#[test]
fn a_place_is_below_8() {
    for place in [1, 7] {
        kept(|net| net.threads[5].place = place);
    }
    for place in [8, 9, 255] {
        broken(|net| net.threads[5].place = place);
        broken(|net| net.threads[63] = thread(place, 0, 16, 0));
    }
}

#[test]
fn a_controller_is_one_of_the_net() {
    for controller in [16, 17] {
        kept(|net| net.threads[5].controller = controller);
    }
    for controller in [1, 15, 18, 31, 32, 255] {
        broken(|net| net.threads[5].controller = controller);
        broken(|net| net.threads[63] = thread(0, 0, controller, 0));
    }
    // Fewer controllers than threads stand at.
    broken(|net| net.n = 1);
    broken(|net| net.n = 0);
    kept(|net| {
        net.threads = [Thread::FREE; 64];
        net.n = 0;
    });
}

#[test]
fn a_position_is_where_a_whole_program_can_be_read() {
    // Place 0: 01 03 02 00 04 11 01 03 01 01 03 00, then zeros.
    for (position, is_sound) in [
        (0, true),
        (1, true), // 03, a repeat of the split: not a node of what was launched
        (2, true),
        (3, true),
        (4, true),
        (5, false), // 11 hex is no node
        (6, true),  // 01 03: an act
        (7, true),  // 03 01 01: a repeat of an act
        (8, true),  // 01 01: an act
        (9, true),
        (10, true),
        (11, true),
        (12, true),
        (383, true),
        (384, false),
        (385, false),
        (3071, false),
        (65_535, false),
    ] {
        let change = |net: &mut Net| net.threads[5].position = position;
        if is_sound {
            kept(change);
        } else {
            broken(change);
        }
        // Alone in its place the position is read another way.
        let alone = |net: &mut Net| {
            net.threads[0] = Thread::FREE;
            net.threads[5].position = position;
        };
        if is_sound {
            kept(alone);
        } else {
            broken(alone);
        }
    }
}

#[test]
fn a_program_must_end_inside_its_place() {
    // Place 1's last bytes don't go on into place 2, which holds zeros.
    let cut: [&[u8]; 6] = [&[1], &[1, 3], &[2, 0], &[3], &[4, 17, 0], &[4, 17, 1, 3]];
    for tail in cut {
        let position = 384 - tail.len();
        for shared in [false, true] {
            broken(|net| {
                net.places[384 + position..768].copy_from_slice(tail);
                net.threads[5] = thread(1, position as u16, 16, 0);
                if shared {
                    net.threads[6] = thread(1, 0, 16, 0);
                }
            });
        }
    }
}

#[test]
fn each_fault_of_a_tree_shows_at_the_position() {
    let faults: [&[u8]; 8] = [
        &[5],
        &[1, 16],
        &[4, 15, 0],
        &[4, 32, 0],
        &[4, 17, 33],
        &[4, 17, 1, 32, 1],
        &[4, 17, 1, 3, 0],
        &[4, 17, 2, 3, 1, 3, 1],
    ];
    for fault in faults {
        for shared in [false, true] {
            broken(|net| {
                net.places[1000..1000 + fault.len()].copy_from_slice(fault);
                net.threads[5] = thread(2, 1000 - 768, 16, 0);
                if shared {
                    net.threads[6] = thread(2, 0, 16, 0);
                }
            });
        }
    }
}

#[test]
fn bytes_of_places_that_no_thread_uses_do_not_matter() {
    kept(|net| net.places[384..].fill(255));
    kept(|net| net.places[20..384].fill(255));
    kept(|net| net.policies.fill(255));
    kept(|net| net.last = 9);
}

#[test]
fn one_pass_at_two_places_and_controllers_is_sound() {
    kept(|net| net.threads[63] = thread(3, 383, 17, net.threads[0].pass));
}
