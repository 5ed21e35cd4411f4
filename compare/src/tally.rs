//! How often each reply number occurred at each call, and what else has to occur before a run may pass.

use crate::damage::CLAUSES;
use crate::halls::GOOD;
use crate::programs::REPEAT;
use crate::proved::Call;
use second::net::{Net, Thread, PLACES, PLACE_LENGTH, SLOTS};
use second::reply::Reply;
use second::tree::{self, Node};

/// Document 01's table: what each call can answer.
const TABLE: [(&str, &[u8]); 3] = [
    ("set_up", &[0, 1, 2, 3, 14, 15]),
    ("launch", &[0, 1, 2, 3, 4, 5, 6, 7, 8, 9, 10, 16, 99]),
    ("step", &[0, 7, 8, 9, 11, 12, 13, 16, 99]),
];

const WANTED: [&str; 12] = [
    "step: an end",
    "step: an act",
    "step: a split",
    "step: a repeat",
    "step: a departure by its slip",
    "step: a departure by its code",
    "launch: a program of length 385",
    "launch: a tree of 383 repeats in each other",
    "all 64 slots run",
    "all 8 places are in use",
    "the counter goes round past a stay that stands",
    "64 passes are passed over",
];

pub struct Tally {
    pub calls: u64,
    replies: [[u64; 256]; 3],
    /// The wanted ones first, then the clauses of soundness.
    seen: Vec<(&'static str, u64)>,
}

impl Tally {
    pub fn new() -> Tally {
        let clauses = CLAUSES.iter().map(|(name, _)| *name);
        Tally {
            calls: 0,
            replies: [[0; 256]; 3],
            seen: WANTED
                .into_iter()
                .chain(clauses)
                .map(|name| (name, 0))
                .collect(),
        }
    }

    pub fn saw(&mut self, name: &'static str) {
        match self.seen.iter_mut().find(|(other, _)| *other == name) {
            Some((_, times)) => *times += 1,
            None => self.seen.push((name, 1)),
        }
    }

    pub fn count(&mut self, call: &Call, before: &Net, reply: &Reply, after: &Net) {
        let which = match call {
            Call::SetUp(_) => 0,
            Call::Launch(..) => 1,
            Call::Step(_) => 2,
        };
        self.calls += 1;
        self.replies[which][usize::from(reply.number)] += 1;
        if !reply.is_done() {
            return;
        }
        match call {
            Call::SetUp(_) => {}
            Call::Launch(_, bytes) => self.launched(bytes),
            Call::Step(slot) => self.saw(stepped(before, *slot)),
        }
        self.filled(after);
        self.issued(before, reply);
    }

    fn launched(&mut self, bytes: &[u8]) {
        if bytes.len() == 2 + 385 {
            self.saw("launch: a program of length 385");
            if bytes[3..386].iter().all(|&byte| byte == REPEAT) {
                self.saw("launch: a tree of 383 repeats in each other");
            }
        }
    }

    fn filled(&mut self, net: &Net) {
        let running = || net.threads.iter().filter(|thread| !thread.is_free());
        if running().count() == SLOTS {
            self.saw("all 64 slots run");
        }
        let used = running().fold(0u8, |used, thread| used | 1 << thread.place);
        if used.count_ones() as usize == PLACES {
            self.saw("all 8 places are in use");
        }
    }

    fn issued(&mut self, before: &Net, reply: &Reply) {
        let went_round = reply.new_pass.map_or(false, |pass| pass < before.last);
        if went_round && reply.passed_over > 0 {
            self.saw("the counter goes round past a stay that stands");
        }
        if reply.passed_over == 64 {
            self.saw("64 passes are passed over");
        }
    }

    /// A row for each reply number of the table; '-' where the call never gives it.
    pub fn show(&self) {
        println!(
            "reply {:>10} {:>10} {:>10}",
            TABLE[0].0, TABLE[1].0, TABLE[2].0
        );
        for number in (0..=16).chain([99]) {
            let cell = |which: usize| match TABLE[which].1.contains(&number) {
                true => self.replies[which][usize::from(number)].to_string(),
                false => "-".to_string(),
            };
            println!(
                "{:>5} {:>10} {:>10} {:>10}",
                number,
                cell(0),
                cell(1),
                cell(2)
            );
        }
        let (wanted, clauses) = self.seen.split_at(WANTED.len());
        let list = |of: &[(&str, u64)]| {
            of.iter()
                .for_each(|(name, times)| println!("{:>9} {}", times, name))
        };
        println!("done calls, among them");
        list(wanted);
        println!("99 for a record with");
        list(clauses);
    }

    /// Every row has to occur, and none that the table doesn't have.
    pub fn judge(&self, verdict: &mut Verdict) {
        for ((call, numbers), times) in TABLE.iter().zip(&self.replies) {
            for number in *numbers {
                let occurs = times[usize::from(*number)] > 0;
                verdict.hold(occurs, || format!("{} never gave {}", call, number));
            }
            let strange = (0..=255)
                .find(|number| times[usize::from(*number)] > 0 && !numbers.contains(number));
            verdict.none(
                strange.map(|number| format!("{} gave {}, none of its replies", call, number)),
            );
        }
        for (name, times) in &self.seen {
            verdict.hold(*times > 0, || format!("did not occur: {}", name));
        }
    }
}

/// How many tests passed and failed; each failure is told at once.
pub struct Verdict {
    pub passed: u64,
    pub failed: u64,
}

impl Verdict {
    pub fn hold(&mut self, holds: bool, line: impl FnOnce() -> String) {
        self.none(if holds { None } else { Some(line()) });
    }

    pub fn none(&mut self, fault: Option<String>) {
        match fault {
            None => self.passed += 1,
            Some(line) => {
                println!("FAILED: {}", line);
                self.failed += 1;
            }
        }
    }
}

/// What a done step of this slot was.
fn stepped(net: &Net, slot: usize) -> &'static str {
    let Thread {
        place,
        position,
        controller,
        ..
    } = net.threads[slot];
    let from = usize::from(place) * PLACE_LENGTH;
    match tree::node_at(
        &net.places[from..from + PLACE_LENGTH],
        usize::from(position),
    ) {
        Some(Node::End) => "step: an end",
        Some(Node::Act { .. }) => "step: an act",
        Some(Node::Split { .. }) => "step: a split",
        Some(Node::Repeat { .. }) => "step: a repeat",
        Some(Node::Depart { target, .. }) => {
            let row = usize::from(target - 16) * 16;
            match net.trust[row + usize::from(controller - 16)] {
                GOOD => "step: a departure by its slip",
                _ => "step: a departure by its code",
            }
        }
        None => "step: of no node",
    }
}
