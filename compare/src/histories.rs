//! Histories of calls, each of one kind, by a seed and a number.

use crate::chance::Chance;
use crate::damage::{self, CLAUSES};
use crate::halls::{Hall, GOOD, UNKNOWN};
use crate::pair::{Ended, Pair};
use crate::programs::{at_the_limits, envelope, Grower, ACT, DEPART, END, REPEAT, SPLIT};
use crate::proved::Call;
use second::net::Net;
use second::reply::Reply;

/// Plays the history of this number from a record of zeros.
pub fn play(pair: &mut Pair, seed: u64, number: u64) -> Result<(), Ended> {
    let mut chance = Chance::of(seed, number);
    pair.adopt(&Net::new(), chance.byte());
    let mut player = Player { pair, chance };
    // By far the longest kind, hence one in so many.
    if number % 4096 == 64 {
        return player.once_round();
    }
    match number % 8 {
        1 | 2 => player.moves(),
        3 => player.crowds(),
        4 => player.limits(),
        5 => player.wraps(),
        6 => player.damaged_bytes(),
        7 => player.damaged_records(),
        _ => player.random_records(),
    }
}

struct Player<'a> {
    pair: &'a mut Pair,
    chance: Chance,
}

impl Player<'_> {
    /// More passes than the counter has numbers, issued one by one, while the first stays stand.
    fn once_round(&mut self) -> Result<(), Ended> {
        self.set_up(&Hall::open(2, UNKNOWN))?;
        for _ in 0..3 {
            self.launch(16, envelope(&[ACT, 3, END]))?;
        }
        let mut to_and_fro = [DEPART, 17, 0, DEPART, 16, 0].repeat(63);
        to_and_fro.push(END);
        let mut issued = 0;
        while issued < 65_700 {
            self.launch(16, envelope(&to_and_fro))?;
            for _ in 0..127 {
                let reply = self.step(3)?;
                issued += u32::from(reply.new_pass.is_some());
            }
        }
        Ok(())
    }

    /// Bags that go from controller to controller.
    fn moves(&mut self) -> Result<(), Ended> {
        self.before_a_set_up()?;
        let hall = Hall::coherent(&mut self.chance);
        self.set_up(&hall)?;
        for _ in 0..200 {
            if self.chance.one_in(5) {
                // Programs that wait for good fill the places; a fresh net makes room for others.
                if self.launch_grown(&hall)?.number == 10 {
                    self.set_up(&hall)?;
                }
            } else {
                self.step_some()?;
            }
        }
        Ok(())
    }

    fn before_a_set_up(&mut self) -> Result<(), Ended> {
        let controller = self.chance.byte();
        self.launch(controller, envelope(&[END]))?;
        self.step_some()?;
        Ok(())
    }

    /// Repeats and splits that fill the slots, and programs in all places.
    fn crowds(&mut self) -> Result<(), Ended> {
        let n = self.chance.pick(&[1, 2, 3, 16]);
        let hall = Hall::open(n, UNKNOWN);
        self.set_up(&hall)?;
        for _ in 0..self.chance.pick(&[3, 10]) {
            self.launch_multiplying(&hall)?;
        }
        for _ in 0..200 {
            if self.chance.one_in(20) {
                self.launch_multiplying(&hall)?;
            } else {
                self.step_some()?;
            }
        }
        Ok(())
    }

    fn launch_multiplying(&mut self, hall: &Hall) -> Result<(), Ended> {
        let at = hall.controller(&mut self.chance);
        let mut grower = Grower {
            chance: &mut self.chance,
            hall,
        };
        let mut tree = vec![REPEAT];
        if grower.chance.one_in(2) {
            tree = vec![REPEAT, SPLIT];
            tree.extend(grower.tree(at, 20));
        }
        tree.extend(grower.tree(at, 60));
        self.launch(at, envelope(&tree))?;
        Ok(())
    }

    /// The longest and the deepest trees, and those just beyond.
    fn limits(&mut self) -> Result<(), Ended> {
        let hall = match self.chance.below(3) {
            0 => Hall::coherent(&mut self.chance),
            1 => Hall::open(2, GOOD),
            _ => Hall::open(2, UNKNOWN),
        };
        for tree in at_the_limits() {
            self.set_up(&hall)?;
            let controller = hall.controller(&mut self.chance);
            self.launch(controller, envelope(&tree))?;
            for _ in 0..4 {
                self.step_some()?;
            }
        }
        Ok(())
    }

    /// Stays that stand in the way of a counter near its end.
    fn wraps(&mut self) -> Result<(), Ended> {
        let hall = Hall::open(3, UNKNOWN);
        self.set_up(&hall)?;
        let to_and_fro = [DEPART, 17, 0, DEPART, 16, 0].repeat(60);
        let tree = [&[REPEAT], &to_and_fro[..], &[END]].concat();
        self.launch(16, envelope(&tree))?;
        self.launch_grown(&hall)?;
        for _ in 0..self.chance.pick(&[5, 20, 63]) {
            self.step(0)?;
        }
        for _ in 0..self.chance.below(10) {
            self.step_some()?;
        }
        self.bring_passes_near()?;
        for _ in 0..60 {
            self.step_some()?;
            if self.chance.one_in(10) {
                self.launch_grown(&hall)?;
            }
        }
        Ok(())
    }

    /// The same net late in its history: the next numbers are carried, with a gap now and then.
    fn bring_passes_near(&mut self) -> Result<(), Ended> {
        let mut net = self.pair.second.clone();
        net.last = self
            .chance
            .pick(&[65_535, 65_534, 65_500, 65_471, 0, 1_000]);
        let odds_of_gap = self.chance.pick(&[10, 1_000]);
        let mut next = net.last;
        for thread in net.threads.iter_mut().filter(|thread| !thread.is_free()) {
            next = next.wrapping_add(if self.chance.one_in(odds_of_gap) {
                2
            } else {
                1
            });
            thread.pass = next;
        }
        self.adopt(&net);
        Ok(())
    }

    /// Set-ups and programs that are cut, flipped or too long.
    fn damaged_bytes(&mut self) -> Result<(), Ended> {
        let hall = Hall::coherent(&mut self.chance);
        self.set_up(&hall)?;
        for _ in 0..100 {
            let any = Hall::any(&mut self.chance).bytes();
            let bytes = match self.chance.below(4) {
                0 => any,
                _ => damage::bytes(&mut self.chance, any),
            };
            if self.chance.one_in(4) {
                self.call(Call::SetUp(bytes))?;
            }
            let at = hall.controller(&mut self.chance);
            let program = Grower {
                chance: &mut self.chance,
                hall: &hall,
            }
            .program(at);
            let bytes = damage::bytes(&mut self.chance, program);
            self.launch(at, bytes)?;
            self.step_some()?;
        }
        Ok(())
    }

    /// A sound record with one clause of soundness broken, and sound again.
    fn damaged_records(&mut self) -> Result<(), Ended> {
        let hall = Hall::open(1 + self.chance.below(16) as u8, UNKNOWN);
        self.set_up(&hall)?;
        self.launch(16, envelope(&[SPLIT, ACT, 3, END, END]))?;
        self.step(0)?;
        for (clause, break_it) in CLAUSES {
            let sound = self.pair.second.clone();
            let mut damaged = sound.clone();
            break_it(&mut self.chance, &mut damaged);
            self.adopt(&damaged);
            self.refused_as_damaged(clause, &hall)?;
            let cut = damage::bytes(&mut self.chance, hall.bytes());
            if !self.call(Call::SetUp(cut))?.is_done() && self.chance.one_in(4) {
                self.set_up(&hall)?;
            }
            self.adopt(&sound);
            self.launch_grown(&hall)?;
        }
        Ok(())
    }

    /// 99 comes before all else, also with no bytes, no such controller and no such slot.
    fn refused_as_damaged(&mut self, clause: &'static str, hall: &Hall) -> Result<(), Ended> {
        let controller = hall.controller(&mut self.chance);
        let slot = self.chance.pick(&[0, 1, 63, 64, usize::MAX]);
        let bytes = envelope(&[ACT, 3, END]);
        let calls = [
            Call::Launch(controller, Vec::new()),
            Call::Launch(controller, bytes),
            Call::Step(slot),
        ];
        for call in calls {
            if self.call(call)?.number != 99 {
                return Err(Ended::Differs(format!(
                    "neither refuses a record with {}",
                    clause
                )));
            }
        }
        self.pair.tally.saw(clause);
        Ok(())
    }

    /// Records that no history left, sound or not.
    fn random_records(&mut self) -> Result<(), Ended> {
        let hall = Hall::any(&mut self.chance);
        for _ in 0..6 {
            let net = self.random_record();
            self.adopt(&net);
            for _ in 0..6 {
                self.step_some()?;
                self.launch_grown(&hall)?;
            }
        }
        let bytes = damage::bytes(&mut self.chance, hall.bytes());
        self.call(Call::SetUp(bytes))?;
        self.set_up(&Hall::open(2, UNKNOWN))
    }

    fn random_record(&mut self) -> Net {
        if self.chance.one_in(10) {
            return damage::noise(&mut self.chance);
        }
        let mut net = damage::record(&mut self.chance);
        if self.chance.one_in(2) {
            for _ in 0..1 + self.chance.below(3) {
                damage::scribble(&mut self.chance, &mut net);
            }
        }
        net
    }

    fn adopt(&mut self, net: &Net) {
        let filler = self.chance.byte();
        self.pair.adopt(net, filler);
    }

    fn call(&mut self, call: Call) -> Result<Reply, Ended> {
        self.pair.call(call)
    }

    fn set_up(&mut self, hall: &Hall) -> Result<(), Ended> {
        self.call(Call::SetUp(hall.bytes())).map(|_| ())
    }

    fn launch(&mut self, at: u8, bytes: Vec<u8>) -> Result<Reply, Ended> {
        self.call(Call::Launch(at, bytes))
    }

    fn step(&mut self, slot: usize) -> Result<Reply, Ended> {
        self.call(Call::Step(slot))
    }

    fn launch_grown(&mut self, hall: &Hall) -> Result<Reply, Ended> {
        let at = hall.controller(&mut self.chance);
        let bytes = Grower {
            chance: &mut self.chance,
            hall,
        }
        .program(at);
        self.launch(at, bytes)
    }

    /// Mostly a slot that runs, now and then any number.
    fn step_some(&mut self) -> Result<Reply, Ended> {
        let threads = self.pair.second.threads.iter().enumerate();
        let running: Vec<usize> = threads
            .filter(|(_, thread)| !thread.is_free())
            .map(|(slot, _)| slot)
            .collect();
        let slot = match self.chance.below(25) {
            0 => self.chance.pick(&[64, 65, 255, 256, 1 << 32, usize::MAX]),
            1 => self.chance.below(64),
            _ if running.is_empty() => 0,
            _ => self.chance.pick(&running),
        };
        self.step(slot)
    }
}
