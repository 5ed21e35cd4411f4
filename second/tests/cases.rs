//! Document 01's bags on both sides of a limit, cases 1 to 14.

mod common;

use common::*;
use second::net::Net;
use second::tree::{is_honest, needs, UNLIMITED};

fn launch_alone(tree: &[u8], counts: &[(u8, u8)]) -> u8 {
    launch(&mut alone(policy(counts)), 16, tree).number
}

fn need(tree: &[u8], name: u8) -> u8 {
    needs(tree, 0).unwrap().of(name)
}

#[test]
fn case_01_end_fits_the_zero_policy() {
    assert_eq!(launch_alone(&[0], &[]), 0);
    assert!(needs(&[0], 0).unwrap().fit(&[0; 32]));
}

#[test]
fn case_02_repeat_of_nothing_fits_the_zero_policy() {
    assert_eq!(launch_alone(&[3, 0], &[]), 0);
    assert_eq!(launch_alone(&[3, 1, 0, 0], &[]), 7);
}

#[test]
fn case_03_two_acts_in_a_row() {
    let tree = [1, 3, 1, 3, 0];
    assert_eq!(need(&tree, 3), 2);
    assert_eq!(launch_alone(&tree, &[(3, 3)]), 0);
    assert_eq!(launch_alone(&tree, &[(3, 2)]), 0);
    assert_eq!(launch_alone(&tree, &[(3, 1)]), 7);
}

#[test]
fn case_04_two_acts_on_both_sides() {
    let tree = [2, 1, 3, 0, 1, 3, 0];
    assert_eq!(need(&tree, 3), 2);
    assert_eq!(launch_alone(&tree, &[(3, 2)]), 0);
    assert_eq!(launch_alone(&tree, &[(3, 1)]), 7);
}

#[test]
fn case_05_a_repeat_is_unlimited() {
    let tree = [3, 1, 3, 0];
    assert_eq!(need(&tree, 3), UNLIMITED);
    assert_eq!(launch_alone(&tree, &[(3, 255)]), 0);
    assert_eq!(launch_alone(&tree, &[(3, 254)]), 7);
}

#[test]
fn case_06_a_departure_needs_its_controller_alone() {
    assert_eq!(is_honest(&CASE_6, 0), Some(true));
    assert_eq!(need(&CASE_6, 17), 1);
    assert_eq!(need(&CASE_6, 3), 0);
    assert_eq!(launch_alone(&CASE_6, &[(17, 1)]), 0);
    assert_eq!(launch_alone(&CASE_6, &[(3, 255)]), 7);
}

#[test]
fn case_07_an_empty_slip_over_an_act_is_not_honest() {
    let tree = [4, 0x11, 0, 1, 3, 0];
    assert_eq!(is_honest(&tree, 0), Some(false));
    assert_eq!(launch_alone(&tree, &[(17, 1), (3, 255)]), 8);
    // Both faults give 8.
    assert_eq!(launch_alone(&tree, &[]), 8);
}

#[test]
fn case_08_a_repeated_departure_needs_its_controller_unlimited() {
    let tree = [3, 4, 0x11, 0, 0];
    assert_eq!(need(&tree, 17), UNLIMITED);
    assert_eq!(launch_alone(&tree, &[(17, 255)]), 0);
    assert_eq!(launch_alone(&tree, &[(17, 254)]), 7);
}

/// Case 9's tree asks for action 3 twice on its slip and uses it once.
fn step_case_09(trust_of_target: u8, allowed: u8) -> u8 {
    let row = [trust_of_target, UNKNOWN];
    let mut net = net(
        &[&[GOOD, UNKNOWN], &row],
        &[policy(&[(17, 1)]), policy(&[(3, allowed)])],
    );
    launched(&mut net, 16, &[4, 0x11, 1, 3, 2, 1, 3, 0]);
    net.step(0).number
}

#[test]
fn case_09_the_slip_counts_from_a_good_controller_the_code_from_others() {
    assert_eq!(step_case_09(GOOD, 1), 12);
    assert_eq!(step_case_09(GOOD, 2), 0);
    assert_eq!(step_case_09(UNKNOWN, 1), 0);
    assert_eq!(step_case_09(BAD, 1), 0);
    assert_eq!(step_case_09(UNKNOWN, 0), 7);
    assert_eq!(step_case_09(BAD, 0), 7);
}

#[test]
fn case_10_carried_numbers_are_passed_over_behind_the_wrap() {
    let mut net = unguarded();
    launched(&mut net, 16, &[0]);
    launched(&mut net, 16, &[0]);
    net.last = 65_535;
    let reply = launch(&mut net, 16, &[0]);
    assert_eq!((reply.new_pass, reply.passed_over), (Some(2), 2));
    assert_eq!(net.last, 2);
}

#[test]
fn case_11_bytes_of_each_refusal() {
    let cases: [(&[u8], u8); 7] = [
        (&[], 1),
        (&[0, 1, 1], 2),
        (&[0, 2, 2, 0], 3),
        (&[0, 2, 1, 5], 5),
        (&[0, 3, 1, 1, 0], 4),
        (&[0, 3, 1, 0, 0], 6),
        (&[0, 2, 1, 0], 0),
    ];
    for (bytes, number) in cases {
        assert_eq!(unguarded().launch(16, bytes).number, number, "{:?}", bytes);
    }
}

#[test]
fn case_12_slips_and_the_longest_tree() {
    let mut net = unguarded();
    for (tree, number) in [
        (vec![4, 17, 2, 3, 1, 3, 1, 0], 5),
        (vec![4, 17, 2, 3, 1, 2, 1, 0], 5),
        (vec![4, 17, 1, 3, 0, 0], 5),
        (vec![4, 17, 2, 3, 1, 4, 1, 0], 0),
        (tree_of_length(384), 0),
        (tree_of_length(383), 0),
        (tree_of_length(385), 2),
    ] {
        assert_eq!(launch(&mut net, 16, &tree).number, number, "{:?}", tree);
    }
}

#[test]
fn case_13_claims_of_a_trustworthy_controller_must_hold() {
    let reply = |trust: &[&[u8]]| {
        Net::new()
            .set_up(&set_up_bytes(trust, &[[0; 32]; 2]))
            .number
    };
    assert_eq!(reply(&[&[GOOD, GOOD], &[UNKNOWN, UNKNOWN]]), 15);
    assert_eq!(reply(&[&[GOOD, GOOD], &[UNKNOWN, BAD]]), 15);
    assert_eq!(reply(&[&[GOOD, BAD], &[UNKNOWN, GOOD]]), 15);
    assert_eq!(reply(&[&[GOOD, GOOD], &[UNKNOWN, GOOD]]), 0);
    assert_eq!(reply(&[&[GOOD, BAD], &[GOOD, BAD]]), 0);
    assert_eq!(reply(&[&[GOOD, UNKNOWN], &[BAD, BAD]]), 0);
    // A controller that isn't trustworthy may claim anything.
    assert_eq!(reply(&[&[UNKNOWN, GOOD], &[UNKNOWN, BAD]]), 0);
    assert_eq!(reply(&[&[BAD, GOOD], &[UNKNOWN, BAD]]), 0);
}

#[test]
fn case_14_a_split_needs_a_slot_an_act_does_not() {
    let mut net = unguarded();
    launched(&mut net, 16, &[3, 2, 1, 3, 0, 0]);
    launched(&mut net, 16, &[1, 3, 0]);
    while running(&net) < 63 {
        assert_eq!(net.step(0).number, 0);
    }
    // Slot 2 is at the repeat's body, a split; one slot is free.
    let mut room_for_one = net.clone();
    assert_eq!(room_for_one.step(2).number, 0);
    assert_eq!(running(&room_for_one), 64);
    assert_eq!(net.step(0).number, 0);
    assert_eq!(running(&net), 64);
    assert_refused(&mut net, 9, |net| net.step(2));
    assert_refused(&mut net, 9, |net| net.step(0));
    let reply = net.step(1);
    assert_eq!((reply.number, reply.name), (0, Some(3)));
}
