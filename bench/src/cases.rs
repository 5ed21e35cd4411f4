//! The cases: a record, a call, and the number and the count of passes passed over that its reply has to have.

use crate::bags::*;
use crate::calls::{lent, Call};
use crate::records::{allows, stands, strange, unknown, usual, worst};
use second::net::{Net, PLACE_LENGTH};

pub struct Case {
    pub name: &'static str,
    pub says: (u8, u8),
    pub made: fn() -> (Net, Call),
}

const fn case(name: &'static str, says: (u8, u8), made: fn() -> (Net, Call)) -> Case {
    Case { name, says, made }
}

/// A refused call stands behind a done one of its kind, on the same record but for what refuses it.
pub const CASES: [Case; 45] = [
    case("usual-set-up", (0, 0), || set_up(4, 1)),
    case("usual-set-up-not-coherent", (15, 0), || set_up(4, 2)),
    case("usual-launch", (0, 0), || launch(usual(7), &USUAL)),
    case("usual-launch-not-fitting", (7, 0), || {
        launch(allows(usual(7), 16, 17, 0), &USUAL)
    }),
    case("usual-launch-not-honest", (8, 0), || {
        launch(usual(7), &dishonest())
    }),
    case("usual-launch-no-place", (10, 0), || {
        launch(usual(8), &USUAL)
    }),
    case("usual-step-end", (0, 0), || step(usual_at(END), 7)),
    case("usual-step-act", (0, 0), || step(usual_at(ACT), 7)),
    case("usual-step-split", (0, 0), || step(usual_at(SPLIT), 7)),
    case("usual-step-repeat", (0, 0), || step(usual_at(REPEAT), 7)),
    case("usual-step-slip", (0, 0), || step(usual_at(DEPART), 7)),
    case("usual-step-slip-not-fitting", (12, 0), || {
        step(allows(usual_at(DEPART), 17, 18, 0), 7)
    }),
    case("usual-step-code", (0, 0), || {
        step(unknown(usual_at(DEPART)), 7)
    }),
    case("usual-step-code-not-fitting", (7, 0), || {
        step(allows(unknown(usual_at(DEPART)), 17, 18, 0), 7)
    }),
    case("usual-step-code-not-honest", (8, 0), || {
        step(usual_dishonest(unknown(usual_at(DEPART))), 7)
    }),
    case("usual-step-no-thread", (11, 0), || step(usual_at(END), 8)),
    case("usual-step-not-sound", (99, 0), || {
        step(usual_at(NOWHERE), 7)
    }),
    case("worst-set-up", (0, 0), || set_up(16, 1)),
    case("worst-set-up-not-coherent", (15, 0), || set_up(16, 2)),
    case("worst-launch", (0, 63), || {
        launch(worst(63, 7, &departs()), &departs())
    }),
    case("worst-launch-not-fitting", (7, 0), || {
        launch(allows(worst(63, 7, &departs()), 16, 17, 0), &departs())
    }),
    case("worst-launch-not-honest", (8, 0), || {
        launch(worst(63, 7, &departs()), &deep(&[], 254, &[]))
    }),
    case("worst-launch-no-slot", (9, 0), || {
        launch(worst(64, 7, &departs()), &departs())
    }),
    case("worst-launch-no-place", (10, 0), || {
        launch(worst(63, 8, &departs()), &departs())
    }),
    case("worst-step-end", (0, 0), || {
        step(last_at(64, &departs(), 383), 63)
    }),
    case("worst-step-act", (0, 0), || {
        step(last_at(64, &deep(&[1, 3], 255, &[]), 0), 63)
    }),
    case("worst-step-split", (0, 0), || {
        step(last_at(63, &split(), 0), 62)
    }),
    case("worst-step-split-no-slot", (9, 0), || {
        step(last_at(64, &split(), 0), 63)
    }),
    case("worst-step-repeat", (0, 0), || {
        step(last_at(63, &repeat(), 0), 62)
    }),
    case("worst-step-repeat-no-slot", (9, 0), || {
        step(last_at(64, &repeat(), 0), 63)
    }),
    case("worst-step-slip", (0, 64), || {
        step(last_at(64, &departs(), 0), 63)
    }),
    case("worst-step-slip-not-fitting", (12, 0), || {
        step(allows(last_at(64, &departs(), 0), 17, 31, 0), 63)
    }),
    case("worst-step-code", (0, 64), || {
        step(unknown(last_at(64, &departs(), 0)), 63)
    }),
    case("worst-step-code-not-fitting", (7, 0), || {
        step(allows(unknown(last_at(64, &departs(), 0)), 17, 15, 254), 63)
    }),
    case("worst-step-no-thread", (11, 0), || {
        step(last_at(64, &departs(), 383), 64)
    }),
    case("worst-step-not-sound", (99, 0), || {
        step(last_at(64, &departs(), 1), 63)
    }),
    case("slips-step-act", (0, 0), || {
        step(last_at(64, &slips(255), 335), 63)
    }),
    case("slips-step-code", (0, 64), || {
        step(unknown(last_at(64, &slips(255), 0)), 63)
    }),
    case("slips-step-code-not-fitting", (7, 0), || {
        step(allows(unknown(last_at(64, &slips(255), 0)), 17, 31, 0), 63)
    }),
    case("slips-step-code-not-honest", (8, 0), || {
        step(unknown(last_at(64, &slips(23), 0)), 63)
    }),
    case("overlaps-step-act", (0, 0), || {
        step(stands(strange(64, 8, &overlaps()), 63, 335), 63)
    }),
    case("overlaps-step-slip", (0, 64), || {
        step(stands(strange(64, 8, &overlaps()), 63, 0), 63)
    }),
    case("splits-step-split", (0, 0), || {
        step(last_at(63, &splits(), 67), 62)
    }),
    case("splits-step-code", (0, 64), || {
        step(unknown(last_at(64, &splits(), 0)), 63)
    }),
    case("splits-launch", (0, 63), || {
        launch(worst(63, 7, &splits()), &splits())
    }),
];

/// A set-up of n controllers; the last one's trust in the one before it, which is good to itself.
fn set_up(n: u8, trust: u8) -> (Net, Call) {
    let mut bytes = hall(n);
    let rows = usize::from(n) * usize::from(n);
    bytes[4 + rows - 2] = trust;
    (Net::new(), Call::SetUp(lent(&bytes)))
}

fn launch(net: Net, tree: &[u8]) -> (Net, Call) {
    (net, Call::Launch(16, lent(&envelope(tree))))
}

fn step(net: Net, slot: usize) -> (Net, Call) {
    (net, Call::Step(slot))
}

/// Eight bags, of which the last stands at this node.
fn usual_at(position: u16) -> Net {
    stands(usual(8), 7, position)
}

/// So many threads over eight full places, of which the last stands at this node.
fn last_at(threads: usize, tree: &[u8], position: u16) -> Net {
    stands(worst(threads, 8, tree), threads - 1, position)
}

/// The usual program with an act that its slip does not name.
fn dishonest() -> [u8; 30] {
    let mut tree = USUAL;
    tree[LAST_ACTION] = 7;
    tree
}

/// The same in the place of the last bag.
fn usual_dishonest(mut net: Net) -> Net {
    net.places[7 * PLACE_LENGTH + LAST_ACTION] = 7;
    net
}

/// The deepest tree behind the longest slip, with the departure first.
fn departs() -> Vec<u8> {
    deep(&[], 255, &[])
}

/// The same as the first side of a split, so that the second is far to find.
fn split() -> Vec<u8> {
    deep(&[2], 255, &[0])
}

/// The same in one more repeat.
fn repeat() -> Vec<u8> {
    deep(&[3], 255, &[])
}
