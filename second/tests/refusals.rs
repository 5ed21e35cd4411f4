//! Each refusal number at each call that gives it, the order of refusals, and the done fields.

mod common;

use common::*;
use second::net::{Net, Thread};
use second::reply::Reply;

fn set_up_refused(number: u8, bytes: &[u8]) {
    // A net that runs, so that a change would show.
    let mut net = alone(policy(&[(3, 1)]));
    launched(&mut net, 16, &[1, 3, 0]);
    assert_refused(&mut net, number, |net| net.set_up(bytes));
}

fn launch_refused(number: u8, bytes: &[u8]) {
    let mut net = alone(policy(&[(3, 1)]));
    launched(&mut net, 16, &[1, 3, 0]);
    assert_refused(&mut net, number, |net| net.launch(16, bytes));
}

fn set_up_of_one() -> Vec<u8> {
    set_up_bytes(&[&[GOOD]], &[[7; 32]])
}

#[test]
fn set_up_1_too_few_bytes() {
    set_up_refused(1, &[]);
    set_up_refused(1, &[0]);
    set_up_refused(1, &[0, 2]);
    let bytes = set_up_of_one();
    set_up_refused(1, &bytes[..bytes.len() - 1]);
}

#[test]
fn set_up_2_length_out_of_range_or_bytes_beyond() {
    set_up_refused(2, &[0, 1, 1]);
    set_up_refused(2, &[0, 0]);
    // 771 is out of range whatever follows, 770 is not.
    set_up_refused(2, &[3, 3]);
    set_up_refused(1, &[3, 2]);
    let mut bytes = set_up_of_one();
    bytes.push(0);
    set_up_refused(2, &bytes);
}

#[test]
fn set_up_3_version() {
    for version in [0, 2, 255] {
        let mut bytes = set_up_of_one();
        bytes[2] = version;
        set_up_refused(3, &bytes);
    }
}

#[test]
fn set_up_14_shape() {
    // n outside 1..16, also where the length would fit.
    set_up_refused(14, &envelope(&[0]));
    let mut seventeen = vec![17];
    seventeen.resize(769, 0);
    set_up_refused(14, &envelope(&seventeen));
    // The length doesn't fit n.
    let mut short = vec![1];
    short.resize(33, 0);
    set_up_refused(14, &envelope(&short));
    short.resize(35, 0);
    set_up_refused(14, &envelope(&short));
    // A trust byte above 2 comes before coherence.
    set_up_refused(
        14,
        &set_up_bytes(&[&[GOOD, GOOD], &[3, BAD]], &[[0; 32]; 2]),
    );
    set_up_refused(14, &set_up_bytes(&[&[3]], &[[0; 32]]));
}

#[test]
fn set_up_15_coherence() {
    set_up_refused(
        15,
        &set_up_bytes(&[&[GOOD, GOOD], &[UNKNOWN, BAD]], &[[0; 32]; 2]),
    );
    set_up_refused(
        15,
        &set_up_bytes(&[&[BAD, UNKNOWN], &[GOOD, GOOD]], &[[0; 32]; 2]),
    );
    // The last of sixteen claims too much of the first.
    let mut rows = [[UNKNOWN; 16]; 16];
    rows[15][15] = GOOD;
    rows[15][0] = BAD;
    let trust: Vec<&[u8]> = rows.iter().map(|row| &row[..]).collect();
    set_up_refused(15, &set_up_bytes(&trust, &[[0; 32]; 16]));
}

#[test]
fn set_up_done_makes_a_fresh_net_of_any_record() {
    let mut record = Net::new();
    record.n = 200;
    record.trust = [9; 256];
    record.policies = [9; 512];
    record.threads = [thread(200, 60_000, 3, 9); 64];
    record.places = [255; 3072];
    record.last = 77;
    let reply = record.set_up(&set_up_bytes(
        &[&[GOOD, BAD], &[UNKNOWN, BAD]],
        &[[7; 32], [8; 32]],
    ));
    assert_eq!(reply, Reply::done());
    let mut fresh = Net::new();
    fresh.n = 2;
    fresh.trust[0] = GOOD;
    fresh.trust[1] = BAD;
    fresh.trust[17] = BAD;
    fresh.policies[..32].copy_from_slice(&[7; 32]);
    fresh.policies[32..64].copy_from_slice(&[8; 32]);
    fresh.last = 65_535;
    assert!(record == fresh);
}

#[test]
fn set_up_takes_sixteen_controllers() {
    let rows = [[GOOD; 16]; 16];
    let trust: Vec<&[u8]> = rows.iter().map(|row| &row[..]).collect();
    let bytes = set_up_bytes(&trust, &[[5; 32]; 16]);
    assert_eq!(bytes.len(), 772);
    let mut net = Net::new();
    assert_eq!(net.set_up(&bytes).number, 0);
    assert!(net.trust == [GOOD; 256] && net.policies == [5; 512]);
    launched(&mut net, 31, &[0]);
}

#[test]
fn launch_1_too_few_bytes() {
    launch_refused(1, &[]);
    launch_refused(1, &[0]);
    launch_refused(1, &[0, 2, 1]);
    // Too few comes before the version.
    launch_refused(1, &[0, 3, 9, 0]);
}

#[test]
fn launch_2_length_out_of_range_or_bytes_beyond() {
    launch_refused(2, &[0, 0]);
    launch_refused(2, &[0, 1, 1]);
    launch_refused(2, &[1, 0x82]);
    launch_refused(1, &[1, 0x81]);
    launch_refused(2, &[0, 2, 1, 0, 0]);
    launch_refused(2, &[0, 2, 9, 0, 0]);
}

#[test]
fn launch_3_version() {
    launch_refused(3, &[0, 2, 0, 0]);
    launch_refused(3, &[0, 2, 2, 5]);
}

#[test]
fn launch_4_and_5_whichever_is_met_first() {
    launch_refused(4, &envelope(&[1]));
    launch_refused(4, &envelope(&[2, 0]));
    launch_refused(4, &envelope(&[4, 17, 32]));
    launch_refused(5, &envelope(&[1, 16]));
    launch_refused(5, &envelope(&[2, 5]));
    launch_refused(5, &envelope(&[4, 17, 33]));
}

#[test]
fn launch_6_left_over_whatever_it_is() {
    launch_refused(6, &envelope(&[0, 0]));
    launch_refused(6, &envelope(&[0, 5]));
    let mut net = Net::new();
    assert_refused(&mut net, 6, |net| launch(net, 16, &[0, 5]));
}

#[test]
fn launch_16_after_the_bytes_and_before_the_code() {
    for controller in [0, 3, 15, 17, 31, 32, 255] {
        let mut net = alone([0; 32]);
        assert_refused(&mut net, 16, |net| launch(net, controller, &[1, 3, 0]));
        assert_refused(&mut net, 6, |net| launch(net, controller, &[0, 0]));
    }
}

#[test]
fn launch_8_before_7() {
    let mut net = alone([0; 32]);
    assert_refused(&mut net, 8, |net| launch(net, 16, &[4, 17, 0, 1, 3, 0]));
    assert_refused(&mut net, 7, |net| launch(net, 16, &[4, 17, 0, 0]));
}

#[test]
fn launch_tests_code_at_trustworthy_controllers_alone() {
    for trust in [UNKNOWN, BAD] {
        let mut net = net(&[&[trust]], &[[0; 32]]);
        launched(&mut net, 16, &[4, 17, 0, 1, 3, 0]);
        launched(&mut net, 16, &[3, 1, 3, 0]);
    }
}

/// One trustworthy controller with all slots taken by one repeat.
fn full_of_slots() -> Net {
    let mut net = alone(policy(&[(3, 255)]));
    launched(&mut net, 16, &[3, 1, 3, 0]);
    for _ in 0..63 {
        assert_eq!(net.step(0).number, 0);
    }
    net
}

#[test]
fn launch_9_after_the_code() {
    let mut net = full_of_slots();
    assert_refused(&mut net, 9, |net| launch(net, 16, &[0]));
    assert_refused(&mut net, 7, |net| launch(net, 16, &[1, 4, 0]));
    // One slot free again.
    assert_eq!(net.step(5).number, 0);
    assert_eq!(net.step(5).number, 0);
    launched(&mut net, 16, &[0]);
    assert_eq!(net.threads[5], thread(1, 0, 16, 1));
}

#[test]
fn launch_10_no_place_though_a_slot_is_free() {
    let mut net = unguarded();
    for _ in 0..8 {
        launched(&mut net, 16, &[3, 0]);
    }
    assert_refused(&mut net, 10, |net| launch(net, 16, &[0]));
    // With neither slot nor place it is 9.
    while running(&net) < 64 {
        assert_eq!(net.step(0).number, 0);
    }
    assert_refused(&mut net, 9, |net| launch(net, 16, &[0]));
}

#[test]
fn launch_writes_the_whole_of_a_place_that_is_used_again() {
    let mut net = unguarded();
    launched(&mut net, 16, &tree_of_length(383));
    launched(&mut net, 16, &[0]);
    launched(&mut net, 16, &[0]);
    // Slot 0 walks to its end; the place is free and keeps its bytes.
    let written = net.places;
    for _ in 0..192 {
        assert_eq!(net.step(0).number, 0);
    }
    assert!(net.threads[0].is_free() && net.places == written);
    launched(&mut net, 16, &[1, 3, 0]);
    assert_eq!(net.threads[0], thread(0, 0, 16, 3));
    let mut expected = vec![1, 3, 0];
    expected.resize(384, 0);
    assert_eq!(place_bytes(&net, 0), &expected[..]);
}

#[test]
fn launch_done_shows_controller_and_new_pass() {
    let mut net = unguarded();
    let reply = launch(&mut net, 16, &[0]);
    let expected = Reply {
        controller: Some(16),
        new_pass: Some(0),
        ..Reply::done()
    };
    assert_eq!(reply, expected);
    assert_eq!(net.threads[0], thread(0, 0, 16, 0));
    assert_eq!(launch(&mut net, 16, &[0]).new_pass, Some(1));
    assert_eq!(net.threads[1], thread(1, 0, 16, 1));
}

#[test]
fn before_any_set_up_launch_gives_at_best_16_and_step_11() {
    let mut net = Net::new();
    for controller in [0, 16, 31, 255] {
        assert_refused(&mut net, 16, |net| launch(net, controller, &[0]));
        assert_refused(&mut net, 1, |net| net.launch(controller, &[]));
        assert_refused(&mut net, 5, |net| launch(net, controller, &[5]));
    }
    assert_refused(&mut net, 11, |net| net.step(0));
    assert_refused(&mut net, 11, |net| net.step(64));
}

#[test]
fn step_11_slot_free_or_above_63() {
    let mut net = full_of_slots();
    assert_eq!(net.step(63).number, 0);
    for slot in [64, 255, 256, 65_536, usize::MAX] {
        assert_refused(&mut net, 11, |net| net.step(slot));
    }
    assert_eq!(net.step(63).number, 0);
    assert_refused(&mut net, 11, |net| net.step(63));
}

#[test]
fn step_9_at_split_and_repeat_alone() {
    let mut net = full_of_slots();
    assert_refused(&mut net, 9, |net| net.step(0));
    assert_eq!(net.step(1).number, 0);
    assert_eq!(net.step(1).number, 0);
    assert_eq!(net.step(0).number, 0);
    assert_eq!(net.threads[1], thread(0, 1, 16, 0));
}

#[test]
fn step_departs_on_a_full_net() {
    let mut net = net(&[&[UNKNOWN, UNKNOWN], &[UNKNOWN, UNKNOWN]], &[[0; 32]; 2]);
    launched(&mut net, 16, &[3, 4, 17, 0, 0]);
    for _ in 0..63 {
        assert_eq!(net.step(0).number, 0);
    }
    let reply = net.step(63);
    assert_eq!((reply.number, reply.new_pass), (0, Some(1)));
}

/// A thread of controller 16 that departs, and the target's trust in 16.
fn departing(tree: &[u8], trust: u8, target_policy: Policy) -> Net {
    let row = [trust, UNKNOWN];
    let mut net = net(&[&[UNKNOWN, GOOD], &row], &[[0; 32], target_policy]);
    launched(&mut net, 16, tree);
    net
}

#[test]
fn step_13_departure_to_its_own_controller() {
    for trust in [UNKNOWN, GOOD, BAD] {
        // Neither slip nor honesty is looked at.
        let mut net = departing(&[4, 16, 1, 9, 9, 4, 17, 0, 1, 3, 0], trust, [0; 32]);
        assert_refused(&mut net, 13, |net| net.step(0));
    }
}

#[test]
fn step_16_no_such_target() {
    for target in [18, 31] {
        let mut net = departing(&[4, target, 1, 9, 9, 4, 17, 0, 1, 3, 0], GOOD, [0; 32]);
        assert_refused(&mut net, 16, |net| net.step(0));
    }
}

#[test]
fn step_12_alone_where_the_slip_is_compared() {
    // The code is not honest and needs too much, yet the slip is right: done.
    let dishonest = [4, 17, 1, 5, 1, 3, 4, 17, 0, 1, 3, 0];
    let mut net = departing(&dishonest, GOOD, policy(&[(5, 1)]));
    assert_eq!(net.step(0).number, 0);
    let mut net = departing(&dishonest, GOOD, [0; 32]);
    assert_refused(&mut net, 12, |net| net.step(0));
    // A slip of 255 fits 255 alone, one of 254 fits 254.
    for (count, allowed, number) in [
        (255, 255, 0),
        (255, 254, 12),
        (254, 254, 0),
        (254, 253, 12),
        (1, 0, 12),
    ] {
        let mut net = departing(&[4, 17, 1, 31, count, 0], GOOD, policy(&[(31, allowed)]));
        assert_eq!(net.step(0).number, number, "{} {}", count, allowed);
    }
}

#[test]
fn step_8_before_7_where_the_code_is_tested() {
    for trust in [UNKNOWN, BAD] {
        let both = [4, 17, 0, 1, 9, 4, 16, 0, 1, 3, 0];
        let mut net = departing(&both, trust, [0; 32]);
        assert_refused(&mut net, 8, |net| net.step(0));
        let need = [4, 17, 2, 9, 1, 16, 1, 1, 9, 4, 16, 1, 3, 1, 1, 3, 0];
        let mut net = departing(&need, trust, policy(&[(16, 1)]));
        assert_refused(&mut net, 7, |net| net.step(0));
        let mut net = departing(&need, trust, policy(&[(16, 1), (9, 1)]));
        assert_eq!(net.step(0).number, 0);
    }
}

#[test]
fn step_looks_only_at_departures_inside_what_is_carried() {
    // The slip of the departure itself is short; the carried code fits the policy.
    let mut net = departing(&[4, 17, 0, 1, 3, 0], UNKNOWN, policy(&[(3, 1)]));
    assert_eq!(net.step(0).number, 0);
}

#[test]
fn step_asks_the_targets_trust() {
    // 16 trusts 17, 17 doesn't trust 16: the code is tested, so a wide slip is no harm.
    let mut net = net(
        &[&[UNKNOWN, GOOD], &[UNKNOWN, UNKNOWN]],
        &[policy(&[(3, 1)]), policy(&[(3, 1)])],
    );
    launched(&mut net, 16, &[4, 17, 1, 3, 2, 1, 3, 0]);
    launched(&mut net, 17, &[4, 16, 1, 3, 2, 1, 3, 0]);
    assert_eq!(net.step(0).number, 0);
    assert_refused(&mut net, 12, |net| net.step(1));
}

#[test]
fn step_tests_entry_at_targets_that_are_not_trustworthy() {
    for own in [UNKNOWN, BAD] {
        let row = [GOOD, own];
        let mut net = net(&[&[UNKNOWN, UNKNOWN], &row], &[[0; 32]; 2]);
        launched(&mut net, 16, &[4, 17, 1, 3, 1, 0]);
        assert_refused(&mut net, 12, |net| net.step(0));
    }
}

#[test]
fn step_done_fields_by_node() {
    let mut net = net(&[&[UNKNOWN, UNKNOWN], &[GOOD, UNKNOWN]], &[[0; 32]; 2]);
    launched(&mut net, 16, &[0]);
    // Repeat of a split of an act and a departure.
    launched(&mut net, 16, &[3, 2, 1, 9, 0, 4, 17, 0, 1, 3, 0]);
    let stay = Reply {
        pass: Some(1),
        controller: Some(16),
        ..Reply::done()
    };
    assert_eq!(
        net.step(0),
        Reply {
            pass: Some(0),
            ..stay
        }
    );
    assert_eq!(net.threads[0], Thread::FREE);

    // Repeat: the thread stays, the lowest free slot gets the body.
    assert_eq!(net.step(1), stay);
    assert_eq!(net.threads[1], thread(1, 0, 16, 1));
    assert_eq!(net.threads[0], thread(1, 1, 16, 1));

    // Split: the thread takes the first side, the lowest free slot the second.
    assert_eq!(net.step(0), stay);
    assert_eq!(net.threads[0], thread(1, 2, 16, 1));
    assert_eq!(net.threads[2], thread(1, 5, 16, 1));

    assert_eq!(
        net.step(0),
        Reply {
            name: Some(9),
            ..stay
        }
    );
    assert_eq!(net.threads[0], thread(1, 4, 16, 1));

    let before = net.places;
    let moved = Reply {
        name: Some(17),
        new_pass: Some(2),
        ..stay
    };
    assert_eq!(net.step(2), moved);
    assert_eq!(net.threads[2], thread(1, 8, 17, 2));
    assert_eq!(net.last, 2);
    assert!(net.places == before);
}

#[test]
fn a_departure_that_is_refused_waits_and_issues_no_pass() {
    let mut net = departing(&[4, 17, 0, 1, 3, 0], UNKNOWN, [0; 32]);
    assert_refused(&mut net, 7, |net| net.step(0));
    assert_refused(&mut net, 7, |net| net.step(0));
    assert_eq!(launch(&mut net, 16, &[0]).new_pass, Some(1));
}
