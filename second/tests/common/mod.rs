//! Builders and a source of chance for the tests.

#![allow(dead_code)]

use second::net::{Net, Thread, PLACE_LENGTH};
use second::reply::Reply;

pub const UNKNOWN: u8 = 0;
pub const GOOD: u8 = 1;
pub const BAD: u8 = 2;

pub type Policy = [u8; 32];

/// Case 6 of the document: honest, needs name 17 once.
pub const CASE_6: [u8; 8] = [4, 0x11, 1, 3, 1, 1, 3, 0];

/// Length, version 1 and what follows.
pub fn envelope(content: &[u8]) -> Vec<u8> {
    let mut bytes = ((content.len() + 1) as u16).to_be_bytes().to_vec();
    bytes.push(1);
    bytes.extend_from_slice(content);
    bytes
}

pub fn policy(counts: &[(u8, u8)]) -> Policy {
    let mut policy = [0; 32];
    for &(name, count) in counts {
        policy[usize::from(name)] = count;
    }
    policy
}

pub fn set_up_bytes(trust: &[&[u8]], policies: &[Policy]) -> Vec<u8> {
    let mut content = vec![trust.len() as u8];
    for row in trust {
        content.extend_from_slice(row);
    }
    for policy in policies {
        content.extend_from_slice(policy);
    }
    envelope(&content)
}

pub fn net(trust: &[&[u8]], policies: &[Policy]) -> Net {
    let mut net = Net::new();
    assert_eq!(net.set_up(&set_up_bytes(trust, policies)), Reply::done());
    net
}

/// One trustworthy controller with this policy.
pub fn alone(policy: Policy) -> Net {
    net(&[&[GOOD]], &[policy])
}

/// One controller that is not trustworthy, so that launch reads bytes only.
pub fn unguarded() -> Net {
    net(&[&[UNKNOWN]], &[[0; 32]])
}

pub fn launch(net: &mut Net, controller: u8, tree: &[u8]) -> Reply {
    net.launch(controller, &envelope(tree))
}

pub fn launched(net: &mut Net, controller: u8, tree: &[u8]) {
    assert_eq!(launch(net, controller, tree).number, 0);
}

/// A refusal shows its number alone and leaves the record as found.
pub fn assert_refused(net: &mut Net, number: u8, call: impl FnOnce(&mut Net) -> Reply) {
    let before = net.clone();
    let reply = call(net);
    let alone = Reply {
        number,
        ..Reply::default()
    };
    assert_eq!(reply, alone);
    assert!(*net == before, "a refusal changed the record");
}

pub fn running(net: &Net) -> usize {
    net.threads
        .iter()
        .filter(|thread| !thread.is_free())
        .count()
}

pub fn thread(place: u8, position: u16, controller: u8, pass: u16) -> Thread {
    Thread {
        place,
        position,
        controller,
        pass,
    }
}

pub fn place_bytes(net: &Net, place: usize) -> &[u8] {
    &net.places[place * PLACE_LENGTH..(place + 1) * PLACE_LENGTH]
}

/// Acts of 3 and an end, inside a repeat where the length is even.
pub fn tree_of_length(length: usize) -> Vec<u8> {
    let mut tree = vec![3; (length + 1) % 2];
    while tree.len() + 1 < length {
        tree.extend_from_slice(&[1, 3]);
    }
    tree.push(0);
    assert_eq!(tree.len(), length);
    tree
}

/// A small generator, the same in every run.
pub struct Chance(pub u64);

impl Chance {
    pub fn next(&mut self) -> u64 {
        self.0 ^= self.0 << 13;
        self.0 ^= self.0 >> 7;
        self.0 ^= self.0 << 17;
        self.0
    }

    pub fn below(&mut self, limit: usize) -> usize {
        (self.next() >> 11) as usize % limit
    }

    pub fn byte(&mut self) -> u8 {
        (self.next() >> 32) as u8
    }

    pub fn one_in(&mut self, odds: usize) -> bool {
        self.below(odds) == 0
    }

    pub fn pick(&mut self, from: &[u8]) -> u8 {
        from[self.below(from.len())]
    }
}
