//! Set-ups: who trusts whom, and what each controller allows.

use crate::chance::Chance;
use crate::programs::envelope;

pub const UNKNOWN: u8 = 0;
pub const GOOD: u8 = 1;
pub const BAD: u8 = 2;

pub struct Hall {
    pub n: u8,
    trust: Vec<u8>,
    policies: Vec<[u8; 32]>,
}

impl Hall {
    /// Good, unknown and bad controllers; those that are trustworthy claim nothing that isn't so.
    pub fn coherent(chance: &mut Chance) -> Hall {
        let mut hall = Hall::any(chance);
        let n = usize::from(hall.n);
        for k in (0..n)
            .filter(|k| hall.trust[k * n + k] == GOOD)
            .collect::<Vec<_>>()
        {
            for l in (0..n).filter(|&l| l != k) {
                let of_itself = hall.trust[l * n + l];
                hall.trust[k * n + l] = chance.pick(&[UNKNOWN, of_itself, of_itself]);
            }
        }
        hall
    }

    /// Any trust at all, seldom coherent.
    pub fn any(chance: &mut Chance) -> Hall {
        let n = chance.pick(&[1, 2, 2, 3, 3, 4, 5, 8, 16]);
        let trust = (0..n * n)
            .map(|_| chance.pick(&[UNKNOWN, GOOD, GOOD, BAD]))
            .collect();
        let counts = chance.pick(&[
            &[255, 255, 254][..],
            &[0, 1, 2, 3, 255],
            &[0, 1, 190, 191, 254, 255],
        ]);
        let policies = (0..n)
            .map(|_| [(); 32].map(|_| chance.pick(counts)))
            .collect();
        Hall {
            n: n as u8,
            trust,
            policies,
        }
    }

    /// Each controller trusts the others, all have this trust in themselves, and all is allowed: only slots and
    /// places are short here. Where none is trustworthy, code isn't even tested.
    pub fn open(n: u8, in_itself: u8) -> Hall {
        let width = usize::from(n);
        let trust = |at: usize| {
            if at / width == at % width {
                in_itself
            } else {
                GOOD
            }
        };
        Hall {
            n,
            trust: (0..width * width).map(trust).collect(),
            policies: vec![[255; 32]; width],
        }
    }

    /// The set-up's bytes.
    pub fn bytes(&self) -> Vec<u8> {
        let mut content = vec![self.n];
        content.extend(&self.trust);
        content.extend(self.policies.iter().flatten());
        envelope(&content)
    }

    /// How often a controller allows a name; a controller that isn't here allows nothing.
    pub fn count(&self, controller: u8, name: u8) -> u8 {
        let policy = self.policies.get(usize::from(controller.wrapping_sub(16)));
        policy.map_or(0, |policy| policy[usize::from(name)])
    }

    /// Mostly one of its own, now and then one that it doesn't have or no controller at all.
    pub fn controller(&self, chance: &mut Chance) -> u8 {
        match chance.below(40) {
            0 => chance.byte(),
            1 => 16 + chance.below(16) as u8,
            _ => 16 + chance.below(usize::from(self.n)) as u8,
        }
    }
}
