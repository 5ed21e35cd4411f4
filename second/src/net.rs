//! The one net record and its calls: set-up, launch and step, all in place.

use crate::envelope;
use crate::reply::{Refusal, Reply};
use crate::tree::{self, Ends, Fault, Node, FIRST_CONTROLLER, LONGEST_TREE, NAMES};

pub const MOST_CONTROLLERS: usize = 16;
pub const SLOTS: usize = 64;
pub const PLACES: usize = 8;
pub const PLACE_LENGTH: usize = LONGEST_TREE;

const GOOD: u8 = 1;
const BAD: u8 = 2;
const UNKNOWN: u8 = 0;

/// One thread slot; controller 0 means free, and then all is zero.
#[derive(Clone, Copy, Debug, Default, PartialEq, Eq)]
pub struct Thread {
    pub place: u8,
    pub position: u16,
    pub controller: u8,
    pub pass: u16,
}

impl Thread {
    pub const FREE: Thread = Thread {
        place: 0,
        position: 0,
        controller: 0,
        pass: 0,
    };

    pub fn is_free(&self) -> bool {
        self.controller == 0
    }
}

/// The record; rows of trust and policy have a fixed width and are zero beyond n.
#[derive(Clone, Debug, PartialEq, Eq)]
pub struct Net {
    pub n: u8,
    pub trust: [u8; MOST_CONTROLLERS * MOST_CONTROLLERS],
    pub policies: [u8; MOST_CONTROLLERS * NAMES],
    pub threads: [Thread; SLOTS],
    pub places: [u8; PLACES * PLACE_LENGTH],
    /// The last pass issued.
    pub last: u16,
}

/// A number the counter gives, and how many carried ones it passed over to find it.
struct Issue {
    pass: u16,
    passed_over: u8,
}

impl Default for Net {
    fn default() -> Net {
        Net::new()
    }
}

impl Net {
    /// The record of zeros that stands before any set-up.
    pub const fn new() -> Net {
        Net {
            n: 0,
            trust: [0; MOST_CONTROLLERS * MOST_CONTROLLERS],
            policies: [0; MOST_CONTROLLERS * NAMES],
            threads: [Thread::FREE; SLOTS],
            places: [0; PLACES * PLACE_LENGTH],
            last: 0,
        }
    }

    /// Makes a fresh net of whatever record stands here.
    pub fn set_up(&mut self, bytes: &[u8]) -> Reply {
        Reply::from(SetUp::read(bytes).map(|set_up| self.begin(&set_up)))
    }

    /// Puts a program at a controller's root with a new pass.
    pub fn launch(&mut self, controller: u8, bytes: &[u8]) -> Reply {
        Reply::from(self.try_launch(controller, bytes))
    }

    /// Lets the thread in a slot go on by one node.
    pub fn step(&mut self, slot: usize) -> Reply {
        Reply::from(self.try_step(slot))
    }

    fn begin(&mut self, set_up: &SetUp<'_>) -> Reply {
        // n is at most 16 by now.
        self.n = set_up.n as u8;
        self.trust.fill(0);
        let rows = self.trust.chunks_exact_mut(MOST_CONTROLLERS);
        for (row, given) in rows.zip(set_up.trust.chunks_exact(set_up.n)) {
            row[..set_up.n].copy_from_slice(given);
        }
        self.policies.fill(0);
        self.policies[..set_up.policies.len()].copy_from_slice(set_up.policies);
        self.threads.fill(Thread::FREE);
        self.places.fill(0);
        // So the first pass is 0.
        self.last = u16::MAX;
        Reply::done()
    }

    fn try_launch(&mut self, controller: u8, bytes: &[u8]) -> Result<Reply, Refusal> {
        self.require_sound()?;
        let tree = read_program(bytes)?;
        self.require_controller(controller)?;
        if self.is_trustworthy(controller) {
            self.test_code(tree, 0, controller)?;
        }
        let slot = self.lowest_free_slot()?;
        let place = self.lowest_free_place()?;
        let issue = self.next_pass();
        self.write_place(place, tree);
        self.last = issue.pass;
        self.threads[slot] = Thread {
            place,
            position: 0,
            controller,
            pass: issue.pass,
        };
        Ok(Reply {
            controller: Some(controller),
            new_pass: Some(issue.pass),
            passed_over: issue.passed_over,
            ..Reply::done()
        })
    }

    fn try_step(&mut self, slot: usize) -> Result<Reply, Refusal> {
        self.require_sound()?;
        let thread = self.running_thread(slot)?;
        let stay = Reply {
            pass: Some(thread.pass),
            controller: Some(thread.controller),
            ..Reply::done()
        };
        // A sound record has a node here, so this refusal never shows.
        let node = tree::node_at(self.place(thread.place), usize::from(thread.position))
            .ok_or(Refusal::NotSound)?;
        match node {
            Node::End => {
                self.threads[slot] = Thread::FREE;
                Ok(stay)
            }
            Node::Act { action, rest } => {
                self.threads[slot].position = rest as u16;
                Ok(Reply {
                    name: Some(action),
                    ..stay
                })
            }
            Node::Split { first, second } => {
                self.start_beside(thread, second)?;
                self.threads[slot].position = first as u16;
                Ok(stay)
            }
            Node::Repeat { body } => {
                self.start_beside(thread, body)?;
                Ok(stay)
            }
            Node::Depart {
                target,
                slip,
                carried,
            } => {
                self.test_entry(thread, target, slip, carried)?;
                let issue = self.move_thread(slot, target, carried);
                Ok(Reply {
                    name: Some(target),
                    new_pass: Some(issue.pass),
                    passed_over: issue.passed_over,
                    ..stay
                })
            }
        }
    }

    /// The lowest free slot gets a thread of the same stay at another position.
    fn start_beside(&mut self, thread: Thread, position: usize) -> Result<(), Refusal> {
        let slot = self.lowest_free_slot()?;
        self.threads[slot] = Thread {
            position: position as u16,
            ..thread
        };
        Ok(())
    }

    fn move_thread(&mut self, slot: usize, target: u8, carried: usize) -> Issue {
        // The number is found before the slot changes: a mover's old pass counts as carried.
        let issue = self.next_pass();
        self.last = issue.pass;
        let thread = &mut self.threads[slot];
        thread.position = carried as u16;
        thread.controller = target;
        thread.pass = issue.pass;
        issue
    }

    fn test_entry(
        &self,
        thread: Thread,
        target: u8,
        slip: tree::Slip<'_>,
        carried: usize,
    ) -> Result<(), Refusal> {
        if target == thread.controller {
            return Err(Refusal::AlreadyThere);
        }
        self.require_controller(target)?;
        // The target's trust decides, not the present controller's.
        if self.trust_of(target, thread.controller) != GOOD {
            return self.test_code(self.place(thread.place), carried, target);
        }
        if slip.fits(self.policy(target)) {
            Ok(())
        } else {
            Err(Refusal::SlipDoesNotFit)
        }
    }

    /// Honesty comes first, so a program with both faults is not honest.
    fn test_code(&self, bytes: &[u8], from: usize, controller: u8) -> Result<(), Refusal> {
        // Only whole programs come here, so this refusal never shows.
        let weight = tree::weigh(bytes, from).ok_or(Refusal::NotSound)?;
        if !weight.honest {
            return Err(Refusal::NotHonest);
        }
        if !weight.needs.fit(self.policy(controller)) {
            return Err(Refusal::NeedDoesNotFit);
        }
        Ok(())
    }

    /// The first number after the last issued that no thread carries.
    fn next_pass(&self) -> Issue {
        let first = self.last.wrapping_add(1);
        // Bit d tells that first + d is carried; 64 threads cannot fill more than these 64.
        let mut carried = 0u64;
        for thread in self.threads.iter().filter(|thread| !thread.is_free()) {
            let distance = thread.pass.wrapping_sub(first);
            if distance < 64 {
                carried |= 1 << distance;
            }
        }
        let passed_over = carried.trailing_ones() as u8;
        Issue {
            pass: first.wrapping_add(u16::from(passed_over)),
            passed_over,
        }
    }

    fn lowest_free_slot(&self) -> Result<usize, Refusal> {
        self.threads
            .iter()
            .position(Thread::is_free)
            .ok_or(Refusal::NoFreeSlot)
    }

    fn lowest_free_place(&self) -> Result<u8, Refusal> {
        let mut used = [false; PLACES];
        for thread in self.threads.iter().filter(|thread| !thread.is_free()) {
            used[usize::from(thread.place)] = true;
        }
        match used.iter().position(|&used| !used) {
            Some(place) => Ok(place as u8),
            None => Err(Refusal::NoFreePlace),
        }
    }

    fn write_place(&mut self, place: u8, tree: &[u8]) {
        let start = usize::from(place) * PLACE_LENGTH;
        let (written, rest) = self.places[start..start + PLACE_LENGTH].split_at_mut(tree.len());
        written.copy_from_slice(tree);
        rest.fill(0);
    }

    fn running_thread(&self, slot: usize) -> Result<Thread, Refusal> {
        match self.threads.get(slot) {
            Some(thread) if !thread.is_free() => Ok(*thread),
            _ => Err(Refusal::NoThread),
        }
    }

    fn place(&self, place: u8) -> &[u8] {
        let start = usize::from(place) * PLACE_LENGTH;
        &self.places[start..start + PLACE_LENGTH]
    }

    fn policy(&self, controller: u8) -> &[u8] {
        let start = row_of(controller) * NAMES;
        &self.policies[start..start + NAMES]
    }

    /// How the first controller trusts the second.
    fn trust_of(&self, controller: u8, other: u8) -> u8 {
        self.trust[row_of(controller) * MOST_CONTROLLERS + row_of(other)]
    }

    fn is_trustworthy(&self, controller: u8) -> bool {
        self.trust_of(controller, controller) == GOOD
    }

    fn has_controller(&self, controller: u8) -> bool {
        controller >= FIRST_CONTROLLER && controller - FIRST_CONTROLLER < self.n
    }

    fn require_controller(&self, controller: u8) -> Result<(), Refusal> {
        if self.has_controller(controller) {
            Ok(())
        } else {
            Err(Refusal::NoSuchController)
        }
    }

    fn require_sound(&self) -> Result<(), Refusal> {
        if self.is_sound() {
            Ok(())
        } else {
            Err(Refusal::NotSound)
        }
    }

    /// Whether the calls can rest on the record; all their indices are safe where this holds.
    pub fn is_sound(&self) -> bool {
        usize::from(self.n) <= MOST_CONTROLLERS && self.trust_is_sound() && self.threads_are_sound()
    }

    fn trust_is_sound(&self) -> bool {
        // The highest byte is found without a branch for each.
        self.trust.iter().fold(0, |most, &trust| most.max(trust)) <= BAD
    }

    fn threads_are_sound(&self) -> bool {
        // Bit s tells that slot s uses the place, so that each place is read once for all of them.
        let mut users = [0u64; PLACES];
        for (slot, thread) in self.threads.iter().enumerate() {
            if thread.is_free() {
                if *thread != Thread::FREE {
                    return false;
                }
                continue;
            }
            match users.get_mut(usize::from(thread.place)) {
                Some(slots) if self.has_controller(thread.controller) => *slots |= 1 << slot,
                _ => return false,
            }
        }
        let places = self.places.chunks_exact(PLACE_LENGTH);
        users
            .iter()
            .zip(places)
            .all(|(&slots, place)| self.positions_are_sound(slots, place))
    }

    fn positions_are_sound(&self, slots: u64, place: &[u8]) -> bool {
        match slots.count_ones() {
            0 => true,
            1 => tree::read(place, self.position_in(slots)).is_ok(),
            _ => self.shared_positions_are_sound(slots, place),
        }
    }

    fn shared_positions_are_sound(&self, slots: u64, place: &[u8]) -> bool {
        let ends = Ends::from_right(place);
        let mut left = slots;
        while left != 0 {
            if ends.end_of(self.position_in(left)).is_none() {
                return false;
            }
            // Takes the lowest slot out of the set.
            left &= left - 1;
        }
        true
    }

    /// The position of the lowest slot in a set that is not empty.
    fn position_in(&self, slots: u64) -> usize {
        usize::from(self.threads[slots.trailing_zeros() as usize].position)
    }
}

/// Where a controller of the net stands in the rows.
fn row_of(controller: u8) -> usize {
    usize::from(controller - FIRST_CONTROLLER)
}

/// The tree of a program's envelope, if it is one whole program and nothing more.
fn read_program(bytes: &[u8]) -> Result<&[u8], Refusal> {
    let tree = envelope::open(bytes, envelope::LONGEST_PROGRAM)?;
    match tree::read(tree, 0) {
        Ok(end) if end == tree.len() => Ok(tree),
        Ok(_) => Err(Refusal::TreeLeftOver),
        Err(Fault::Cut) => Err(Refusal::TreeCut),
        Err(Fault::Bad { .. }) => Err(Refusal::NoMeaning),
    }
}

/// A set-up as its bytes give it, n wide.
struct SetUp<'a> {
    n: usize,
    trust: &'a [u8],
    policies: &'a [u8],
}

impl<'a> SetUp<'a> {
    fn read(bytes: &'a [u8]) -> Result<SetUp<'a>, Refusal> {
        let content = envelope::open(bytes, envelope::LONGEST_SET_UP)?;
        let set_up = SetUp::part(content).ok_or(Refusal::BadSetUp)?;
        if set_up.is_coherent() {
            Ok(set_up)
        } else {
            Err(Refusal::NotCoherent)
        }
    }

    fn part(content: &'a [u8]) -> Option<SetUp<'a>> {
        let (&n, rows) = content.split_first()?;
        let n = usize::from(n);
        if !(1..=MOST_CONTROLLERS).contains(&n) || rows.len() != n * n + n * NAMES {
            return None;
        }
        let (trust, policies) = rows.split_at(n * n);
        if trust.iter().any(|&trust| trust > BAD) {
            return None;
        }
        Some(SetUp { n, trust, policies })
    }

    /// What a trustworthy controller claims to know of another must be what that one says of itself.
    fn is_coherent(&self) -> bool {
        (0..self.n)
            .filter(|&k| self.trust_of(k, k) == GOOD)
            .all(|k| (0..self.n).all(|l| self.claim_holds(k, l)))
    }

    fn claim_holds(&self, k: usize, l: usize) -> bool {
        let claim = self.trust_of(k, l);
        claim == UNKNOWN || claim == self.trust_of(l, l)
    }

    fn trust_of(&self, k: usize, l: usize) -> u8 {
        self.trust[k * self.n + l]
    }
}
