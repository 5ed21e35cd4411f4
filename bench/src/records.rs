//! The sound records that the calls are made on.

use crate::bags::{hall, USUAL};
use second::net::{Net, Thread, MOST_CONTROLLERS, PLACE_LENGTH};
use second::tree::{self, Node, FIRST_CONTROLLER, NAMES};

/// A net of n controllers, fresh from a set-up.
fn fresh(n: u8) -> Net {
    let mut net = Net::new();
    net.set_up(&hall(n));
    net
}

fn put(net: &mut Net, place: usize, tree: &[u8]) {
    net.places[place * PLACE_LENGTH..][..tree.len()].copy_from_slice(tree);
}

/// Threads of `tree` at 16, dealt out to `places` places and to these positions, with passes of their own, from 0 on.
fn crowd(net: &mut Net, threads: usize, places: usize, tree: &[u8], positions: &[usize]) {
    for place in 0..places {
        put(net, place, tree);
    }
    for slot in 0..threads {
        // No count here is above 384.
        net.threads[slot] = Thread {
            place: (slot % places) as u8,
            position: positions[slot * 5 % positions.len()] as u16,
            controller: FIRST_CONTROLLER,
            pass: slot as u16,
        };
    }
}

/// The nodes of the program at `at`, where steps can bring a thread.
fn nodes(tree: &[u8], at: usize) -> Vec<usize> {
    let inside = match tree::node_at(tree, at) {
        Some(Node::Act { rest, .. }) => nodes(tree, rest),
        Some(Node::Split { first, second }) => [nodes(tree, first), nodes(tree, second)].concat(),
        Some(Node::Repeat { body }) => nodes(tree, body),
        Some(Node::Depart { carried, .. }) => nodes(tree, carried),
        Some(Node::End) | None => Vec::new(),
    };
    [vec![at], inside].concat()
}

/// Four controllers, and bags with the usual program, a thread and a place each.
pub fn usual(bags: usize) -> Net {
    let mut net = fresh(4);
    crowd(&mut net, bags, bags, &USUAL, &nodes(&USUAL, 0));
    // As it is after so many launches.
    net.last = bags as u16 - 1;
    net
}

/// Sixteen controllers, and threads in full places, whose passes are the next that the counter comes to.
pub fn worst(threads: usize, places: usize, tree: &[u8]) -> Net {
    let mut net = fresh(16);
    crowd(&mut net, threads, places, tree, &nodes(tree, 0));
    net
}

/// The same with threads where no step brings them, but from where a whole program can be read: inside slips too.
pub fn strange(threads: usize, places: usize, tree: &[u8]) -> Net {
    let whole: Vec<usize> = (0..tree.len())
        .filter(|&at| tree::read(tree, at).is_ok())
        .collect();
    let mut net = fresh(16);
    crowd(&mut net, threads, places, tree, &whole);
    net
}

/// Where the thread in a slot stands.
pub fn stands(mut net: Net, slot: usize, position: u16) -> Net {
    net.threads[slot].position = position;
    net
}

/// 17 does not know 16: the code of what comes from there is tested, and not the slip.
pub fn unknown(mut net: Net) -> Net {
    net.trust[MOST_CONTROLLERS] = 0;
    net
}

/// How often a controller allows a name.
pub fn allows(mut net: Net, controller: u8, name: usize, count: u8) -> Net {
    net.policies[usize::from(controller - FIRST_CONTROLLER) * NAMES + name] = count;
    net
}
