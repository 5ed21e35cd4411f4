//! The stack that the header promises to be enough, tried on the deepest trees.

use crate::halls::{Hall, GOOD, UNKNOWN};
use crate::programs::{at_the_limits, envelope};
use crate::proved::{Call, Proved};
use std::thread;

/// The header's.
const ENOUGH: usize = 256 * 1024;

/// Launches and steps each tree where code is tested and where it is only read. Too small a stack ends the program.
pub fn try_deepest() {
    let deepest = || {
        let mut proved = Proved::new();
        for in_itself in [GOOD, UNKNOWN] {
            for tree in at_the_limits() {
                proved.call(&Call::SetUp(Hall::open(2, in_itself).bytes()));
                proved.call(&Call::Launch(16, envelope(&tree)));
                proved.call(&Call::Step(0));
            }
        }
    };
    let trial = thread::Builder::new().stack_size(ENOUGH).spawn(deepest);
    trial
        .expect("no thread to be had")
        .join()
        .expect("a panic on the small stack");
}
