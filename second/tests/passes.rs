//! The pass counter: wraps, old stays that stand, and the mover's own pass.

mod common;

use common::*;
use second::net::{Net, Thread};

/// The definition to the letter: candidates outside, slots inside.
fn next_by_definition(net: &Net) -> (u16, u8) {
    let mut candidate = net.last.wrapping_add(1);
    let mut passed_over = 0;
    while net
        .threads
        .iter()
        .any(|thread| !thread.is_free() && thread.pass == candidate)
    {
        candidate = candidate.wrapping_add(1);
        passed_over += 1;
    }
    (candidate, passed_over)
}

fn launch_issues(net: &mut Net, pass: u16, passed_over: u8) {
    assert_eq!(next_by_definition(net), (pass, passed_over));
    let reply = launch(net, 16, &[0]);
    assert_eq!(
        (reply.number, reply.new_pass, reply.passed_over),
        (0, Some(pass), passed_over)
    );
    assert_eq!(net.last, pass);
}

#[test]
fn passes_count_up_from_zero() {
    let mut net = unguarded();
    for pass in 0..8 {
        launch_issues(&mut net, pass, 0);
    }
}

#[test]
fn a_freed_number_is_not_given_again_before_the_wrap() {
    let mut net = unguarded();
    launch_issues(&mut net, 0, 0);
    assert_eq!(net.step(0).number, 0);
    launch_issues(&mut net, 1, 0);
}

#[test]
fn free_slots_do_not_carry_pass_zero() {
    let mut net = unguarded();
    net.last = 65_535;
    launch_issues(&mut net, 0, 0);
}

#[test]
fn old_stays_are_passed_over_at_the_wrap() {
    let mut net = unguarded();
    launched(&mut net, 16, &[3, 0]);
    launched(&mut net, 16, &[3, 0]);
    launched(&mut net, 16, &[0]);
    launched(&mut net, 16, &[3, 0]);
    assert_eq!(net.step(2).number, 0);
    // 0, 1 and 3 stand.
    net.last = 65_534;
    launch_issues(&mut net, 65_535, 0);
    launch_issues(&mut net, 2, 2);
    launch_issues(&mut net, 4, 1);
}

#[test]
fn a_whole_round_of_launches_comes_back_to_old_stays() {
    let mut net = unguarded();
    launched(&mut net, 16, &[3, 0]);
    for pass in 1..=u16::MAX {
        launch_issues(&mut net, pass, 0);
        assert_eq!(net.step(1).number, 0);
    }
    // 0 still stands, 1 has long been freed.
    launch_issues(&mut net, 1, 1);
}

#[test]
fn a_number_carried_twice_is_passed_over_once() {
    let mut net = unguarded();
    launched(&mut net, 16, &[3, 0]);
    for _ in 0..20 {
        assert_eq!(net.step(0).number, 0);
    }
    net.last = 65_535;
    launch_issues(&mut net, 1, 1);
}

#[test]
fn a_run_of_carried_numbers_ends_at_the_first_gap() {
    let mut net = unguarded();
    for (slot, pass) in [(0, 65_534), (1, 65_535), (2, 0), (3, 2)] {
        net.threads[slot] = thread(0, 383, 16, pass);
    }
    net.last = 65_533;
    launch_issues(&mut net, 1, 3);
    launch_issues(&mut net, 3, 1);
}

/// All slots taken at controller 16 of two, with passes from `first` on, and slot 0 about to depart.
fn full_net(first: u16) -> Net {
    let mut net = net(&[&[UNKNOWN, UNKNOWN], &[UNKNOWN, UNKNOWN]], &[[0; 32]; 2]);
    net.places[..4].copy_from_slice(&[4, 17, 0, 0]);
    for slot in 0..64 {
        net.threads[slot] = thread(0, 0, 16, first.wrapping_add(slot as u16));
    }
    net
}

fn depart_issues(net: &mut Net, slot: usize, pass: u16, passed_over: u8) {
    assert_eq!(next_by_definition(net), (pass, passed_over));
    let old = net.threads[slot].pass;
    let reply = net.step(slot);
    assert_eq!(
        (reply.number, reply.pass, reply.name),
        (0, Some(old), Some(17))
    );
    assert_eq!(
        (reply.new_pass, reply.passed_over),
        (Some(pass), passed_over)
    );
    assert_eq!(net.threads[slot], thread(0, 3, 17, pass));
    assert_eq!(net.last, pass);
}

#[test]
fn at_most_64_numbers_are_passed_over() {
    for first in [0u16, 100, 65_500, 65_535] {
        let mut net = full_net(first);
        net.last = first.wrapping_sub(1);
        depart_issues(&mut net, 10, first.wrapping_add(64), 64);
        // From the middle of the run only the rest is passed over; the number that was left is free.
        net.last = first.wrapping_sub(1);
        depart_issues(&mut net, 11, first.wrapping_add(10), 10);
    }
}

#[test]
fn a_movers_old_pass_counts_as_carried() {
    let mut net = full_net(500);
    for slot in 1..64 {
        net.threads[slot] = Thread::FREE;
    }
    net.last = 499;
    depart_issues(&mut net, 0, 501, 1);
}

#[test]
fn a_pass_at_a_distance_is_not_passed_over() {
    let mut net = full_net(64);
    net.last = 65_535;
    depart_issues(&mut net, 0, 0, 0);
}

#[test]
fn passes_agree_with_the_definition_on_many_records() {
    let mut chance = Chance(77);
    for _ in 0..20_000 {
        let mut net = full_net(0);
        // Around the wrap on both sides.
        net.last = u16::from(chance.byte()).wrapping_sub(100);
        let spread = 1 + chance.below(200);
        for slot in 1..64 {
            net.threads[slot].pass = net.last.wrapping_add(chance.below(spread) as u16);
            if chance.one_in(8) {
                net.threads[slot] = Thread::FREE;
            }
        }
        let (pass, passed_over) = next_by_definition(&net);
        depart_issues(&mut net, 0, pass, passed_over);
    }
}
