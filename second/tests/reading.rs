//! The reader, the needs and honesty, beyond the document's cases.

mod common;

use common::*;
use second::tree::{is_honest, needs, node_at, read, weigh, Fault, Node, UNLIMITED};

fn bad(offset: usize) -> Result<usize, Fault> {
    Err(Fault::Bad { offset })
}

const CUT: Result<usize, Fault> = Err(Fault::Cut);

#[test]
fn a_whole_program_is_read_up_to_its_end() {
    assert_eq!(read(&[0], 0), Ok(1));
    assert_eq!(read(&[0, 9], 0), Ok(1));
    assert_eq!(read(&[2, 0, 1, 15, 0], 0), Ok(5));
    assert_eq!(read(&[9, 3, 0], 1), Ok(3));
    assert_eq!(read(&CASE_6, 0), Ok(8));
}

#[test]
fn a_node_byte_has_meanings_up_to_four() {
    assert_eq!(read(&[5], 0), bad(0));
    assert_eq!(read(&[255], 0), bad(0));
    assert_eq!(read(&[2, 0, 5], 0), bad(2));
    assert_eq!(read(&[4], 0), CUT);
}

#[test]
fn an_act_takes_an_action() {
    assert_eq!(read(&[1, 15, 0], 0), Ok(3));
    assert_eq!(read(&[1, 16, 0], 0), bad(1));
    assert_eq!(read(&[1], 0), CUT);
    assert_eq!(read(&[1, 0], 0), CUT);
}

#[test]
fn a_departure_takes_a_controller() {
    assert_eq!(read(&[4, 15, 0, 0], 0), bad(1));
    assert_eq!(read(&[4, 16, 0, 0], 0), Ok(4));
    assert_eq!(read(&[4, 31, 0, 0], 0), Ok(4));
    assert_eq!(read(&[4, 32, 0, 0], 0), bad(1));
    assert_eq!(read(&[4, 16], 0), CUT);
    assert_eq!(read(&[4, 16, 0], 0), CUT);
}

#[test]
fn a_slip_holds_up_to_32_entries() {
    let mut tree = vec![4, 16, 32];
    for name in 0..32 {
        tree.extend_from_slice(&[name, 1]);
    }
    tree.push(0);
    assert_eq!(read(&tree, 0), Ok(68));
    tree[2] = 33;
    assert_eq!(read(&tree, 0), bad(2));
    assert_eq!(read(&[4, 16, 33], 0), bad(2));
    assert_eq!(read(&[4, 16, 32], 0), CUT);
}

#[test]
fn slip_names_rise_and_counts_are_not_zero() {
    assert_eq!(read(&[4, 16, 1, 31, 255, 0], 0), Ok(6));
    assert_eq!(read(&[4, 16, 1, 32, 1, 0], 0), bad(3));
    assert_eq!(read(&[4, 16, 1, 3, 0, 0], 0), bad(4));
    assert_eq!(read(&[4, 16, 2, 3, 1, 3, 1, 0], 0), bad(5));
    assert_eq!(read(&[4, 16, 2, 3, 1, 2, 1, 0], 0), bad(5));
    assert_eq!(read(&[4, 16, 2, 3, 1, 4, 0, 0], 0), bad(6));
    assert_eq!(read(&[4, 16, 1, 3], 0), CUT);
}

#[test]
fn each_byte_is_judged_by_those_before_it_alone() {
    // Name 31 first of two has a meaning; it is the second name that has none.
    assert_eq!(read(&[4, 16, 2, 31, 1], 0), CUT);
    for second in 0..=255 {
        assert_eq!(read(&[4, 16, 2, 31, 1, second], 0), bad(5));
    }
}

#[test]
fn a_position_outside_the_bytes_is_cut() {
    assert_eq!(read(&[], 0), CUT);
    assert_eq!(read(&[0], 1), CUT);
    assert_eq!(read(&[0], usize::MAX), CUT);
    assert_eq!(node_at(&[0], usize::MAX), None);
    assert_eq!(weigh(&[0], usize::MAX), None);
}

#[test]
fn very_long_bytes_are_read_without_a_stack() {
    let mut tree = vec![2; 1_000_000];
    assert_eq!(read(&tree, 0), CUT);
    tree.resize(2_000_001, 0);
    assert_eq!(read(&tree, 0), Ok(2_000_001));
    assert_eq!(weigh(&tree, 0), None);
}

#[test]
fn a_node_tells_what_follows_it() {
    assert_eq!(node_at(&[0], 0), Some(Node::End));
    assert_eq!(
        node_at(&[1, 7, 0], 0),
        Some(Node::Act { action: 7, rest: 2 })
    );
    assert_eq!(node_at(&[3, 0], 0), Some(Node::Repeat { body: 1 }));
    assert_eq!(
        node_at(&[2, 1, 3, 0, 0], 0),
        Some(Node::Split {
            first: 1,
            second: 4
        })
    );
    match node_at(&CASE_6, 0) {
        Some(Node::Depart {
            target,
            slip,
            carried,
        }) => {
            assert_eq!((target, carried), (17, 5));
            assert!(slip.fits(&policy(&[(3, 1)])));
            assert!(!slip.fits(&policy(&[])));
        }
        other => panic!("{:?}", other),
    }
}

#[test]
fn the_most_a_finite_need_can_be_is_191() {
    let tree = tree_of_length(383);
    assert_eq!(needs(&tree, 0).unwrap().of(3), 191);
    let repeated = tree_of_length(384);
    assert_eq!(needs(&repeated, 0).unwrap().of(3), UNLIMITED);
}

#[test]
fn a_repeat_reaches_its_own_body_alone() {
    // Split of a repeat and an act.
    let weight = needs(&[2, 3, 1, 3, 0, 1, 4, 0], 0).unwrap();
    assert_eq!((weight.of(3), weight.of(4)), (UNLIMITED, 1));
    // The act before the repeat, and a need that is already unlimited.
    let weight = needs(&[1, 4, 2, 3, 1, 3, 0, 1, 3, 0], 0).unwrap();
    assert_eq!((weight.of(3), weight.of(4)), (UNLIMITED, 1));
    // A repeat of a split reaches both sides.
    let weight = needs(&[3, 2, 1, 3, 0, 1, 4, 0], 0).unwrap();
    assert_eq!((weight.of(3), weight.of(4)), (UNLIMITED, UNLIMITED));
    // A repeat outside doesn't reach into what is carried.
    assert_eq!(is_honest(&[3, 4, 17, 1, 3, 1, 1, 3, 0], 0), Some(true));
    // A repeat inside what is carried does.
    assert_eq!(is_honest(&[4, 17, 1, 3, 254, 3, 1, 3, 0], 0), Some(false));
    assert_eq!(is_honest(&[4, 17, 1, 3, 255, 3, 1, 3, 0], 0), Some(true));
}

#[test]
fn honesty_looks_at_every_depth() {
    let honest = [4, 17, 1, 18, 1, 4, 18, 1, 3, 1, 1, 3, 0];
    assert_eq!(is_honest(&honest, 0), Some(true));
    // The inner slip is short, the outer one right.
    let inner = [4, 17, 1, 18, 1, 4, 18, 0, 1, 3, 0];
    assert_eq!(is_honest(&inner, 0), Some(false));
    // The outer slip doesn't name the inner target.
    let outer = [4, 17, 0, 4, 18, 1, 3, 1, 1, 3, 0];
    assert_eq!(is_honest(&outer, 0), Some(false));
    // On a split's second side, behind an act, in a repeat.
    assert_eq!(
        is_honest(&[2, 0, 1, 1, 3, 4, 17, 0, 1, 3, 0], 0),
        Some(false)
    );
    // A slip may promise more than is used.
    assert_eq!(is_honest(&[4, 17, 2, 0, 9, 31, 255, 0], 0), Some(true));
}
