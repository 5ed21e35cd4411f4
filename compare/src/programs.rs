//! Programs as bytes: grown by chance for a hall, and the ones at the limits.

use crate::chance::Chance;
use crate::halls::Hall;
use second::tree;

pub const END: u8 = 0;
pub const ACT: u8 = 1;
pub const SPLIT: u8 = 2;
pub const REPEAT: u8 = 3;
pub const DEPART: u8 = 4;

pub const LONGEST: usize = 384;

/// Length, version 1 and what follows. A content too long for two length bytes is none of ours.
pub fn envelope(content: &[u8]) -> Vec<u8> {
    let mut bytes = ((content.len() + 1) as u16).to_be_bytes().to_vec();
    bytes.push(1);
    bytes.extend(content);
    bytes
}

/// Grows trees that use few names, so that needs, slips and policies meet often.
pub struct Grower<'a> {
    pub chance: &'a mut Chance,
    pub hall: &'a Hall,
}

impl Grower<'_> {
    /// An envelope with a tree for a controller, mostly short, now and then of the greatest length.
    pub fn program(&mut self, at: u8) -> Vec<u8> {
        let room = self.chance.pick(&[8, 20, 20, 60, 60, 120, LONGEST]);
        let tree = self.tree(at, room);
        if self.chance.one_in(30) {
            return envelope(&filled(tree));
        }
        envelope(&tree)
    }

    pub fn tree(&mut self, at: u8, room: usize) -> Vec<u8> {
        if room < 6 {
            return vec![END];
        }
        match self.chance.below(10) {
            0 => vec![END],
            1..=3 => self.acts(at, room),
            4 | 5 => self.split(at, room),
            6 => self.after(vec![REPEAT], at, room),
            _ => self.departure(at, room),
        }
    }

    /// The same action a few times, or just as often as the policy allows, or once more.
    fn acts(&mut self, at: u8, room: usize) -> Vec<u8> {
        let action = self.chance.pick(&[0, 3, 3, 15]);
        let allowed = usize::from(self.hall.count(at, action));
        let times = match self.chance.below(3) {
            0 if allowed <= 191 => allowed + self.chance.below(2),
            _ => 1 + self.chance.below(2),
        };
        let acts = [ACT, action].repeat(times.min((room - 1) / 2));
        self.after(acts, at, room)
    }

    fn after(&mut self, mut tree: Vec<u8>, at: u8, room: usize) -> Vec<u8> {
        let rest = self.tree(at, room - tree.len());
        tree.extend(rest);
        tree
    }

    fn split(&mut self, at: u8, room: usize) -> Vec<u8> {
        let mut tree = vec![SPLIT];
        let half = 1 + self.chance.below(room - 2);
        tree.extend(self.tree(at, half));
        self.after(tree, at, room)
    }

    fn departure(&mut self, at: u8, room: usize) -> Vec<u8> {
        let target = self.target(at);
        let carried = self.tree(target, room * 2 / 3);
        let slip = self.slip(target, &carried);
        let mut tree = vec![DEPART, target, (slip.len() / 2) as u8];
        // A slip without room stays away: such a departure is seldom honest, and those are wanted too.
        if tree.len() + slip.len() + carried.len() <= room {
            tree.extend(slip);
        } else {
            tree[2] = 0;
        }
        if tree.len() + carried.len() > room {
            return vec![END];
        }
        tree.extend(carried);
        tree
    }

    fn target(&mut self, at: u8) -> u8 {
        match self.chance.below(30) {
            0 => at.max(16).min(31),
            1 => 16 + self.chance.below(16) as u8,
            _ => self.neighbour(at),
        }
    }

    /// Another controller of the hall, or one behind its last where it has no other.
    fn neighbour(&mut self, at: u8) -> u8 {
        let n = self.hall.n;
        let here = at.wrapping_sub(16);
        match here < n && n > 1 {
            true => 16 + (here + 1 + self.chance.below(usize::from(n - 1)) as u8) % n,
            false => 17,
        }
    }

    /// Mostly what is needed; now and then one less, one more, what the target allows, or one more than that.
    fn slip(&mut self, target: u8, carried: &[u8]) -> Vec<u8> {
        let needs = tree::needs(carried, 0).unwrap_or_default();
        let mut slip = Vec::new();
        for name in 0..32 {
            let need = needs.of(name);
            if need == 0 && !self.chance.one_in(200) {
                continue;
            }
            let allowed = self.hall.count(target, name);
            let count = match self.chance.below(40) {
                0 => need.saturating_sub(1),
                1 => need.saturating_add(1),
                2 => allowed.saturating_add(1),
                3..=9 => allowed,
                _ => need,
            };
            if count > 0 {
                slip.extend([name, count]);
            }
        }
        slip
    }
}

/// The tree behind acts, and behind a repeat where the length is odd, so that it has 384 bytes.
pub fn filled(tree: Vec<u8>) -> Vec<u8> {
    let missing = LONGEST - tree.len();
    let mut all = vec![REPEAT; missing % 2];
    all.extend([ACT, 3].repeat(missing / 2));
    all.extend(tree);
    all
}

/// Trees as long and as deep as they come, and some that are one byte too long.
pub fn at_the_limits() -> Vec<Vec<u8>> {
    let mut all_names = vec![DEPART, 17, 32];
    all_names.extend((0..32).flat_map(|name| [name, 255]));
    let ended = |mut tree: Vec<u8>| {
        tree.push(END);
        tree
    };
    vec![
        // 383 repeats, 191 splits that lean to the left and to the right, 127 departures, each in the other.
        ended(vec![REPEAT; 383]),
        [vec![SPLIT; 191], vec![END; 192]].concat(),
        ended([SPLIT, END].repeat(191)),
        ended([DEPART, 17, 0, DEPART, 16, 0].repeat(63)),
        ended([DEPART, 17, 0].repeat(127)),
        // Slips of 32 entries, each in the other.
        ended(all_names.repeat(5)),
        ended(all_names),
        // A finite need of 191, and the longest tree with what just doesn't go into an envelope.
        ended([ACT, 3].repeat(191)),
        filled(vec![END]),
        [filled(vec![END]), vec![END]].concat(),
        ended(vec![REPEAT; 384]),
        ended(vec![REPEAT; 65_000]),
    ]
}
