//! Programs in prefix form: the reader, the needs and honesty.

pub const LONGEST_TREE: usize = 384;
pub const NAMES: usize = 32;
pub const FIRST_CONTROLLER: u8 = 16;
pub const UNLIMITED: u8 = 255;

const END: u8 = 0;
const ACT: u8 = 1;
const SPLIT: u8 = 2;
const REPEAT: u8 = 3;
const DEPART: u8 = 4;

const MOST_SLIP_ENTRIES: u8 = 32;

/// What keeps a reading from a whole program.
#[derive(Clone, Copy, Debug, PartialEq, Eq)]
pub enum Fault {
    /// The bytes end first.
    Cut,
    /// The byte at this offset has no meaning at its place.
    Bad { offset: usize },
}

/// Reads the program at `from` left to right and says where it ends.
pub fn read(bytes: &[u8], from: usize) -> Result<usize, Fault> {
    let mut at = from;
    // Counting the programs still owed needs no stack, so any length of bytes can be read.
    let mut owed = 1usize;
    while owed > 0 {
        match byte(bytes, at)? {
            END => {
                owed -= 1;
                at += 1;
            }
            ACT => {
                byte_that(bytes, at + 1, is_action)?;
                at += 2;
            }
            SPLIT => {
                owed += 1;
                at += 1;
            }
            REPEAT => at += 1,
            DEPART => {
                byte_that(bytes, at + 1, is_controller)?;
                at = read_slip(bytes, at + 2)?;
            }
            _ => return Err(Fault::Bad { offset: at }),
        }
    }
    Ok(at)
}

/// Reads the number of entries and the entries, and says where the slip ends.
fn read_slip(bytes: &[u8], at: usize) -> Result<usize, Fault> {
    let entries = byte_that(bytes, at, |number| number <= MOST_SLIP_ENTRIES)?;
    let mut at = at + 1;
    // Names rise strictly, so each entry moves up the lowest name that may follow.
    let mut lowest = 0;
    for _ in 0..entries {
        let name = byte_that(bytes, at, |name| name >= lowest && is_name(name))?;
        byte_that(bytes, at + 1, |count| count > 0)?;
        lowest = name + 1;
        at += 2;
    }
    Ok(at)
}

fn is_action(name: u8) -> bool {
    name < FIRST_CONTROLLER
}

fn is_controller(name: u8) -> bool {
    is_name(name) && !is_action(name)
}

fn is_name(name: u8) -> bool {
    usize::from(name) < NAMES
}

fn byte(bytes: &[u8], at: usize) -> Result<u8, Fault> {
    bytes.get(at).copied().ok_or(Fault::Cut)
}

fn byte_that(bytes: &[u8], at: usize, has_meaning: impl Fn(u8) -> bool) -> Result<u8, Fault> {
    let found = byte(bytes, at)?;
    if has_meaning(found) {
        Ok(found)
    } else {
        Err(Fault::Bad { offset: at })
    }
}

/// Where the programs of one place of 384 bytes end, worked out once for all threads that share it.
pub(crate) struct Ends<'a> {
    place: &'a [u8],
    /// From here on the place holds only zeros, and each is a program by itself.
    zeros: usize,
    /// 0 where no whole program stands: none ends before its first byte.
    known: [u16; LONGEST_TREE],
}

impl<'a> Ends<'a> {
    /// Goes from right to left, so that what follows a node is known before it.
    pub(crate) fn from_right(place: &'a [u8]) -> Ends<'a> {
        let mut ends = Ends {
            place,
            zeros: start_of_zeros(place),
            known: [0; LONGEST_TREE],
        };
        for at in (0..ends.zeros).rev() {
            // An end inside a place fits 16 bits.
            ends.known[at] = ends.end_by_node(at).unwrap_or(0) as u16;
        }
        ends
    }

    /// Where the program at `at` ends, if it is whole inside the place.
    pub(crate) fn end_of(&self, at: usize) -> Option<usize> {
        if at >= self.zeros {
            return if at < self.place.len() {
                Some(at + 1)
            } else {
                None
            };
        }
        match self.known.get(at) {
            Some(&end) if end != 0 => Some(usize::from(end)),
            _ => None,
        }
    }

    fn end_by_node(&self, at: usize) -> Option<usize> {
        match *self.place.get(at)? {
            END => Some(at + 1),
            ACT if is_action(*self.place.get(at + 1)?) => self.end_of(at + 2),
            SPLIT => self.end_of(self.end_of(at + 1)?),
            REPEAT => self.end_of(at + 1),
            DEPART if is_controller(*self.place.get(at + 1)?) => {
                self.end_of(read_slip(self.place, at + 2).ok()?)
            }
            _ => None,
        }
    }
}

/// Looks at a stretch at a time, since most of a place is often zero.
fn start_of_zeros(place: &[u8]) -> usize {
    const STRETCH: usize = 32;
    let is_used = |bytes: &[u8]| bytes.iter().fold(0, |all, &byte| all | byte) != 0;
    match place.chunks(STRETCH).rposition(is_used) {
        Some(last) => place.len().min((last + 1) * STRETCH),
        None => 0,
    }
}

/// A node of a whole program with the positions of what follows it.
#[derive(Clone, Copy, Debug, PartialEq, Eq)]
pub enum Node<'a> {
    End,
    Act {
        action: u8,
        rest: usize,
    },
    Split {
        first: usize,
        second: usize,
    },
    Repeat {
        body: usize,
    },
    Depart {
        target: u8,
        slip: Slip<'a>,
        carried: usize,
    },
}

/// The node at `at`, or nothing where no whole program stands.
pub fn node_at(bytes: &[u8], at: usize) -> Option<Node<'_>> {
    match *bytes.get(at)? {
        END => Some(Node::End),
        ACT => Some(Node::Act {
            action: *bytes.get(at + 1)?,
            rest: at + 2,
        }),
        SPLIT => Some(Node::Split {
            first: at + 1,
            second: read(bytes, at + 1).ok()?,
        }),
        REPEAT => Some(Node::Repeat { body: at + 1 }),
        DEPART => {
            let slip = Slip::at(bytes, at + 2)?;
            Some(Node::Depart {
                target: *bytes.get(at + 1)?,
                slip,
                carried: at + 3 + slip.entries.len(),
            })
        }
        _ => None,
    }
}

/// The entries of a slip as they stand in the bytes, name and count in turn.
#[derive(Clone, Copy, Debug, PartialEq, Eq)]
pub struct Slip<'a> {
    entries: &'a [u8],
}

impl<'a> Slip<'a> {
    fn at(bytes: &'a [u8], at: usize) -> Option<Slip<'a>> {
        let length = 2 * usize::from(*bytes.get(at)?);
        let entries = bytes.get(at + 1..at + 1 + length)?;
        Some(Slip { entries })
    }

    /// Whether every count fits the policy; a name that is absent has count 0 and always fits.
    pub fn fits(&self, policy: &[u8]) -> bool {
        self.entries
            .chunks_exact(2)
            .all(|entry| match policy.get(usize::from(entry[0])) {
                Some(&allowed) => count_fits(entry[1], allowed),
                None => false,
            })
    }

    /// The slip as a policy of all names.
    fn counts(&self) -> Option<[u8; NAMES]> {
        let mut counts = [0; NAMES];
        for entry in self.entries.chunks_exact(2) {
            *counts.get_mut(usize::from(entry[0]))? = entry[1];
        }
        Some(counts)
    }
}

/// Unlimited is 255 and a finite count is below it, so one comparison is right for both.
fn count_fits(count: u8, allowed: u8) -> bool {
    count <= allowed
}

/// How often a program may use each name; 255 is unlimited, a finite need is at most 191.
#[derive(Clone, Copy, Debug, Default, PartialEq, Eq)]
pub struct Needs {
    counts: [u8; NAMES],
}

impl Needs {
    pub fn of(&self, name: u8) -> u8 {
        self.counts.get(usize::from(name)).copied().unwrap_or(0)
    }

    pub fn fit(&self, policy: &[u8]) -> bool {
        policy.len() == NAMES
            && self
                .counts
                .iter()
                .zip(policy)
                .all(|(&need, &allowed)| count_fits(need, allowed))
    }

    fn add(&mut self, name: u8, repeated: bool) -> Option<()> {
        let need = self.counts.get_mut(usize::from(name))?;
        // A finite need never reaches 255 in 384 bytes, so only a repeat makes it unlimited.
        *need = if repeated {
            UNLIMITED
        } else {
            need.saturating_add(1)
        };
        Some(())
    }
}

/// What a test of code looks at.
#[derive(Clone, Copy, Debug, PartialEq, Eq)]
pub struct Weight {
    pub needs: Needs,
    pub honest: bool,
}

/// Weighs the whole program at `from`; nothing where none stands or the bytes are longer than a tree.
pub fn weigh(bytes: &[u8], from: usize) -> Option<Weight> {
    // The limit keeps a finite need below 255 and the depth of the descent small.
    if bytes.len() > LONGEST_TREE {
        return None;
    }
    let mut weight = Weight {
        needs: Needs::default(),
        honest: true,
    };
    add_program(bytes, from, false, &mut weight.needs, &mut weight.honest)?;
    Some(weight)
}

pub fn needs(bytes: &[u8], from: usize) -> Option<Needs> {
    weigh(bytes, from).map(|weight| weight.needs)
}

pub fn is_honest(bytes: &[u8], from: usize) -> Option<bool> {
    weigh(bytes, from).map(|weight| weight.honest)
}

/// Adds what the program at `from` needs, notes a slip that is too small, and says where the program ends.
fn add_program(
    bytes: &[u8],
    from: usize,
    repeated: bool,
    needs: &mut Needs,
    honest: &mut bool,
) -> Option<usize> {
    let mut at = from;
    // What is added from a repeat's body on is unlimited, up to this program's end.
    let mut repeated = repeated;
    loop {
        match *bytes.get(at)? {
            END => return Some(at + 1),
            ACT => {
                needs.add(*bytes.get(at + 1)?, repeated)?;
                at += 2;
            }
            SPLIT => at = add_program(bytes, at + 1, repeated, needs, honest)?,
            REPEAT => {
                repeated = true;
                at += 1;
            }
            DEPART => {
                needs.add(*bytes.get(at + 1)?, repeated)?;
                let slip = Slip::at(bytes, at + 2)?;
                return check_carried(bytes, at + 3 + slip.entries.len(), slip, honest);
            }
            _ => return None,
        }
    }
}

/// A carried program's needs count for its own slip alone, not for what departs with it.
fn check_carried(bytes: &[u8], carried: usize, slip: Slip<'_>, honest: &mut bool) -> Option<usize> {
    let mut needs = Needs::default();
    let end = add_program(bytes, carried, false, &mut needs, honest)?;
    *honest &= needs.fit(&slip.counts()?);
    Some(end)
}
