//! Random records, programs and histories against plain definitions: nothing panics, refusals change nothing.

mod common;

use common::*;
use second::net::{Net, Thread};
use second::reply::Reply;
use second::tree::{read, weigh, Fault};

/// A program as a tree of its own, so that needs and honesty can be said as the document says them.
enum Program {
    End,
    Act(u8, Box<Program>),
    Split(Box<Program>, Box<Program>),
    Repeat(Box<Program>),
    Depart(u8, Vec<(u8, u8)>, Box<Program>),
}

use Program::*;

/// `None` is unlimited.
type Need = Option<u32>;

fn need(program: &Program, name: u8) -> Need {
    match program {
        End => Some(0),
        Act(action, rest) => Some(need(rest, name)? + u32::from(*action == name)),
        Split(first, second) => Some(need(first, name)? + need(second, name)?),
        Repeat(body) => match need(body, name) {
            Some(0) => Some(0),
            _ => None,
        },
        Depart(target, _, _) => Some(u32::from(*target == name)),
    }
}

fn fits(need: Need, count: u8) -> bool {
    match need {
        None => count == 255,
        Some(need) => count == 255 || u32::from(count) >= need,
    }
}

fn slip_count(slip: &[(u8, u8)], name: u8) -> u8 {
    slip.iter()
        .find(|entry| entry.0 == name)
        .map_or(0, |entry| entry.1)
}

fn honest(program: &Program) -> bool {
    match program {
        End => true,
        Act(_, rest) | Repeat(rest) => honest(rest),
        Split(first, second) => honest(first) && honest(second),
        Depart(_, slip, carried) => {
            honest(carried) && (0..32).all(|name| fits(need(carried, name), slip_count(slip, name)))
        }
    }
}

fn write(program: &Program, bytes: &mut Vec<u8>) {
    match program {
        End => bytes.push(0),
        Act(action, rest) => {
            bytes.extend([1, *action]);
            write(rest, bytes);
        }
        Split(first, second) => {
            bytes.push(2);
            write(first, bytes);
            write(second, bytes);
        }
        Repeat(body) => {
            bytes.push(3);
            write(body, bytes);
        }
        Depart(target, slip, carried) => {
            bytes.extend([4, *target, slip.len() as u8]);
            for (name, count) in slip {
                bytes.extend([*name, *count]);
            }
            write(carried, bytes);
        }
    }
}

fn bytes_of(program: &Program) -> Vec<u8> {
    let mut bytes = Vec::new();
    write(program, &mut bytes);
    bytes
}

/// Few names, so that needs and counts meet often.
fn random_program(chance: &mut Chance, depth: usize) -> Program {
    if depth == 0 {
        return End;
    }
    let inner = |chance: &mut Chance| Box::new(random_program(chance, depth - 1));
    match chance.below(8) {
        0 => End,
        1 | 2 => Act(chance.pick(&[0, 3, 15]), inner(chance)),
        3 | 4 => Split(inner(chance), inner(chance)),
        5 => Repeat(inner(chance)),
        _ => {
            let carried = inner(chance);
            let target = chance.pick(&[16, 17, 18, 31]);
            let slip = random_slip(chance, &carried);
            Depart(target, slip, carried)
        }
    }
}

/// Mostly what is needed, now and then one less or one more.
fn random_slip(chance: &mut Chance, carried: &Program) -> Vec<(u8, u8)> {
    let mut slip = Vec::new();
    for name in 0..32 {
        let exact = need(carried, name).map_or(255, |need| need as u8);
        let count = match chance.below(60) {
            0 => exact.saturating_sub(1),
            1 => exact.saturating_add(1),
            _ => exact,
        };
        if count > 0 {
            slip.push((name, count));
        }
    }
    slip
}

/// The reader by plain descent, as the table of nodes has it.
fn read_by_descent(bytes: &[u8], at: usize) -> Result<usize, Fault> {
    let byte = |at: usize| bytes.get(at).copied().ok_or(Fault::Cut);
    let bad = |offset: usize| Err(Fault::Bad { offset });
    match byte(at)? {
        0 => Ok(at + 1),
        1 => match byte(at + 1)? {
            0..=15 => read_by_descent(bytes, at + 2),
            _ => bad(at + 1),
        },
        2 => {
            let second = read_by_descent(bytes, at + 1)?;
            read_by_descent(bytes, second)
        }
        3 => read_by_descent(bytes, at + 1),
        4 => {
            if !(16..=31).contains(&byte(at + 1)?) {
                return bad(at + 1);
            }
            let number = usize::from(byte(at + 2)?);
            if number > 32 {
                return bad(at + 2);
            }
            for entry in 0..number {
                let name_at = at + 3 + 2 * entry;
                let name = byte(name_at)?;
                if name > 31 || (entry > 0 && name <= bytes[name_at - 2]) {
                    return bad(name_at);
                }
                if byte(name_at + 1)? == 0 {
                    return bad(name_at + 1);
                }
            }
            read_by_descent(bytes, at + 3 + 2 * number)
        }
        _ => bad(at),
    }
}

fn sound_by_definition(net: &Net) -> bool {
    net.n <= 16
        && net.trust.iter().all(|&trust| trust <= 2)
        && net.threads.iter().all(|thread| {
            if thread.controller == 0 {
                return *thread == Thread::FREE;
            }
            let controller = u32::from(thread.controller);
            thread.place < 8
                && (16..16 + u32::from(net.n)).contains(&controller)
                && read_by_descent(
                    place_bytes(net, thread.place.into()),
                    thread.position.into(),
                )
                .is_ok()
        })
}

/// Bytes that look like trees more often than chance alone would have it.
fn random_tree_bytes(chance: &mut Chance, bytes: &mut [u8]) {
    let noise = 2 + chance.below(100);
    for at in 0..bytes.len() {
        bytes[at] = if chance.one_in(noise) {
            chance.byte()
        } else if at > 0 && bytes[at - 1] == 4 {
            16 + chance.below(16) as u8
        } else {
            chance.below(5) as u8
        };
    }
}

#[test]
fn the_reader_agrees_with_plain_descent() {
    let mut chance = Chance(1);
    let mut whole = 0;
    for _ in 0..100_000 {
        let length = chance.below(60);
        let mut bytes = vec![0; length];
        random_tree_bytes(&mut chance, &mut bytes);
        let found = read(&bytes, 0);
        assert_eq!(found, read_by_descent(&bytes, 0), "{:?}", bytes);
        whole += u32::from(found.is_ok());
        // Nothing panics where no whole program stands.
        assert!(weigh(&bytes, 0).is_some() || found.is_err());
    }
    assert!(whole > 10_000);
}

#[test]
fn needs_and_honesty_agree_with_the_definition() {
    let mut chance = Chance(2);
    let (mut honest_ones, mut others) = (0, 0);
    for _ in 0..20_000 {
        let program = random_program(&mut chance, 9);
        let bytes = bytes_of(&program);
        if bytes.len() > 384 {
            continue;
        }
        assert_eq!(read(&bytes, 0), Ok(bytes.len()));
        let weight = weigh(&bytes, 0).unwrap();
        for name in 0..32 {
            let expected = need(&program, name).map_or(255, |need| need as u8);
            assert_eq!(weight.needs.of(name), expected, "{:?}", bytes);
        }
        assert_eq!(weight.honest, honest(&program), "{:?}", bytes);
        if weight.honest {
            honest_ones += 1;
        } else {
            others += 1;
        }
    }
    assert!(
        honest_ones > 1_000 && others > 1_000,
        "{} {}",
        honest_ones,
        others
    );
}

/// A record that is sound but for the positions now and then.
fn random_record(chance: &mut Chance) -> Net {
    let mut net = Net::new();
    net.n = 1 + chance.below(16) as u8;
    for trust in net.trust.iter_mut() {
        *trust = chance.below(3) as u8;
    }
    for count in net.policies.iter_mut() {
        *count = chance.pick(&[0, 1, 2, 254, 255]);
    }
    for place in net.places.chunks_mut(384) {
        let used = chance.below(385);
        random_tree_bytes(chance, &mut place[..used]);
    }
    let wild = chance.one_in(4);
    // Full nets and roomy ones both come up.
    let odds_of_gap = [1_000, 20, 3][chance.below(3)];
    for slot in 0..64 {
        if chance.one_in(odds_of_gap) {
            continue;
        }
        let place = chance.below(8);
        let mut position = chance.below(384);
        // Mostly a position from which a program can be read.
        while !wild && read(place_bytes(&net, place), position).is_err() {
            position = chance.below(384);
            if chance.one_in(1000) {
                break;
            }
        }
        let controller = 16 + chance.below(net.n.into()) as u8;
        net.threads[slot] = thread(
            place as u8,
            position as u16,
            controller,
            chance.below(70) as u16,
        );
    }
    net.last = chance.below(70) as u16;
    net
}

/// Any byte may stand in any field.
fn scribble(chance: &mut Chance, net: &mut Net) {
    let slot = chance.below(64);
    match chance.below(7) {
        0 => net.n = chance.byte(),
        1 => net.trust[chance.below(256)] = chance.byte(),
        2 => net.threads[slot].place = chance.byte(),
        3 => net.threads[slot].position = chance.next() as u16,
        4 => net.threads[slot].controller = chance.byte(),
        5 => net.threads[slot].pass = chance.next() as u16,
        _ => net.places[chance.below(3072)] = chance.byte(),
    }
}

fn check_call(net: &mut Net, sound: bool, call: impl FnOnce(&mut Net) -> Reply) -> u8 {
    let before = net.clone();
    let reply = call(net);
    if reply.number == 0 {
        assert!(sound && net.is_sound() && sound_by_definition(net));
    } else {
        assert!(*net == before);
        let bare = Reply {
            number: reply.number,
            ..Reply::default()
        };
        assert_eq!(reply, bare);
    }
    assert_eq!(reply.number == 99, !sound);
    reply.number
}

#[test]
fn any_record_is_judged_as_the_definition_says_and_nothing_panics() {
    let mut chance = Chance(3);
    let mut seen = [0u32; 100];
    for round in 0..6_000 {
        let mut net = random_record(&mut chance);
        if round % 2 == 0 {
            for _ in 0..1 + chance.below(3) {
                scribble(&mut chance, &mut net);
            }
        }
        for _ in 0..8 {
            let sound = sound_by_definition(&net);
            assert_eq!(net.is_sound(), sound);
            let slot = chance.below(66);
            seen[usize::from(check_call(&mut net, sound, |net| net.step(slot)))] += 1;
            let tree = bytes_of(&random_program(&mut chance, 4));
            let controller = 14 + chance.below(20) as u8;
            let number = check_call(&mut net, sound, |net| launch(net, controller, &tree));
            seen[usize::from(number)] += 1;
        }
    }
    // Done and every refusal behind the bytes come up.
    for number in [0, 7, 8, 9, 10, 11, 12, 13, 16, 99] {
        assert!(
            seen[number] > 10,
            "{} came up {} times",
            number,
            seen[number]
        );
    }
}

#[test]
fn bytes_of_any_kind_never_panic() {
    let mut chance = Chance(4);
    let mut net = unguarded();
    for _ in 0..100_000 {
        let mut bytes = vec![0; chance.below(12)];
        random_tree_bytes(&mut chance, &mut bytes);
        if bytes.len() > 2 && !chance.one_in(4) {
            let length = (bytes.len() - 2) as u16;
            bytes[..2].copy_from_slice(&length.to_be_bytes());
            bytes[2] = 1;
        }
        let before = net.clone();
        let reply = match chance.below(3) {
            0 => net.set_up(&bytes),
            1 => net.launch(16, &bytes),
            _ => net.step(chance.below(70)),
        };
        assert!(reply.number == 0 || net == before);
    }
}

#[test]
fn no_stay_at_a_guarded_controller_uses_more_than_its_policy_allows() {
    let mut chance = Chance(5);
    let mut used_names = 0;
    for _ in 0..400 {
        let policies: Vec<Policy> = (0..3)
            .map(|_| {
                let mut policy = [0; 32];
                for count in policy.iter_mut() {
                    *count = chance.pick(&[1, 2, 3, 255]);
                }
                policy
            })
            .collect();
        // All good towards each other, so that every slip is true by honesty at launch.
        let mut net = net(&[&[GOOD; 3], &[GOOD; 3], &[GOOD; 3]], &policies);
        // What each stay has used; no number comes twice in so short a history.
        let mut used = vec![[0u32; 32]; 300];
        for _ in 0..300 {
            let slot = chance.below(12);
            let reply = if chance.one_in(6) {
                let tree = bytes_of(&random_program(&mut chance, 5));
                let controller = 16 + chance.below(3) as u8;
                launch(&mut net, controller, &tree)
            } else {
                net.step(slot)
            };
            if let (Some(pass), Some(controller), Some(name)) =
                (reply.pass, reply.controller, reply.name)
            {
                let count = &mut used[usize::from(pass)][usize::from(name)];
                *count += 1;
                used_names += 1;
                let allowed = policies[usize::from(controller) - 16][usize::from(name)];
                assert!(allowed == 255 || *count <= u32::from(allowed));
            }
        }
    }
    assert!(used_names > 1_000);
}
