//! The programs and set-ups that the cases are made of. Nodes: 0 end, 1 act, 2 split, 3 repeat, 4 depart.

use second::net::PLACE_LENGTH;

/// A bag's usual program, 30 bytes with each kind of node: it acts and departs to 17; there it acts twice and splits:
/// one side acts again and again, the other departs to 18 and acts there.
pub const USUAL: [u8; 30] = [
    1, 3, 4, 17, 3, 3, 3, 5, 255, 18, 1, 1, 3, 1, 3, 2, 3, 1, 5, 0, 1, 3, 4, 18, 1, 6, 1, 1, 6, 0,
];
/// Where its nodes stand.
pub const ACT: u16 = 0;
pub const DEPART: u16 = 2;
pub const SPLIT: u16 = 15;
pub const REPEAT: u16 = 16;
pub const END: u16 = 29;
/// No program begins here: no node has the first byte 17.
pub const NOWHERE: u16 = 3;
/// The last act, of action 6, which is all that the slip before it names.
pub const LAST_ACTION: usize = 28;

/// What stands around a bag's tree, or around a set-up: the length and the version.
pub fn envelope(content: &[u8]) -> Vec<u8> {
    // Nothing here is longer than a set-up.
    let length = (content.len() + 1) as u16;
    [&length.to_be_bytes()[..], &[1], content].concat()
}

/// n controllers that trust each other and allow all.
pub fn hall(n: u8) -> Vec<u8> {
    let n_wide = usize::from(n);
    envelope(&[&[n][..], &vec![1; n_wide * n_wide], &vec![255; 32 * n_wide]].concat())
}

/// A departure with the longest slip, which names all there is; action 15 is allowed so often.
fn depart(to: u8, of_15: u8) -> Vec<u8> {
    let entries = (0..32).flat_map(|name| [name, if name == 15 { of_15 } else { 255 }]);
    [4, to, 32].into_iter().chain(entries).collect()
}

/// A full place: between `head` and `tail` a departure to 17 with the longest slip, which carries repeats, one in
/// the other as deep as there is room, around one use of action 15.
pub fn deep(head: &[u8], of_15: u8, tail: &[u8]) -> Vec<u8> {
    let before = [head, &depart(17, of_15)].concat();
    let behind = [&[1, 15, 0], tail].concat();
    let repeats = vec![3; PLACE_LENGTH - before.len() - behind.len()];
    [before, repeats, behind].concat()
}

/// A full place: five departures with longest slips, one in the other, and 24 uses of action 15 in the innermost, whose
/// slip allows it so often.
pub fn slips(of_15: u8) -> Vec<u8> {
    let mut tree = depart(17, 255);
    for _ in 0..3 {
        tree.extend(depart(31, 255));
    }
    tree.extend(depart(31, of_15));
    tree.extend([1, 15].repeat(24));
    tree.push(0);
    tree
}

/// A full place: a departure with the longest slip, which carries splits, each as the first side of another.
pub fn splits() -> Vec<u8> {
    let mut tree = depart(17, 255);
    tree.extend([2; 158]);
    tree.extend([0; 159]);
    tree
}

/// A full place: five departures, one in the other, whose slips hold departures too, if they are read from the middle:
/// behind a name from 15 on stand a count of 4, the controller that is the next name, and how many entries are left.
pub fn overlaps() -> Vec<u8> {
    let count = |name: u8| match name {
        0..=14 => 255,
        15..=31 if name % 2 == 1 => 4,
        _ => 31 - name,
    };
    let entries: Vec<u8> = (0..32).flat_map(|name| [name, count(name)]).collect();
    let mut tree = [&[4, 17, 32][..], &entries].concat().repeat(5);
    tree.extend([1, 15].repeat(24));
    tree.push(0);
    tree
}
