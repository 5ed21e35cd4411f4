// A hall of three controllers, its bags, and what happens: the calls as a programmer writes them in Rust, over C's symbols.
// tools/staticlib, then: rustc -L target/staticlib -l static=diverter -o hall examples/hall.rs

// The names of this hall.
const START_BELT: u8 = 0;
const PUSH: u8 = 1;
const OPEN_GATE: u8 = 2;
const ENTRANCE: u8 = 16;
const SORTER: u8 = 17;
const PIER: u8 = 18;

const CONTROLLERS: usize = 3;
const GOOD: u8 = 1;

// The record and the answer, as include/diverter.h has them.
#[repr(C)]
#[derive(Clone, Copy)]
struct Thread {
    place: u8,
    position: u16,
    controller: u8,
    pass: u16,
}

#[repr(C)]
struct Net {
    n: u8,
    trust: [u8; 256],
    policies: [u8; 512],
    threads: [Thread; 64],
    places: [u8; 3072],
    last: u16,
}

#[repr(C)]
struct Field {
    present: u8,
    value: u16,
}

#[repr(C)]
struct Answer {
    number: u8,
    over: u8,
    pass: Field,
    controller: Field,
    name: Field,
    fresh: Field,
}

extern "C" {
    fn diverter_set_up(net: *mut Net, bytes: *const u8, length: usize) -> Answer;
    fn diverter_launch(net: *mut Net, at: u8, bytes: *const u8, length: usize) -> Answer;
    fn diverter_step(net: *mut Net, slot: usize) -> Answer;
}

// Safe, since a reference and a slice are all that the package asks of its pointers.
impl Net {
    fn empty() -> Net {
        let free = Thread { place: 0, position: 0, controller: 0, pass: 0 };
        Net { n: 0, trust: [0; 256], policies: [0; 512], threads: [free; 64], places: [0; 3072], last: 0 }
    }

    fn set_up(&mut self, bytes: &[u8]) -> Answer {
        unsafe { diverter_set_up(self, bytes.as_ptr(), bytes.len()) }
    }

    fn launch(&mut self, at: u8, bytes: &[u8]) -> Answer {
        unsafe { diverter_launch(self, at, bytes.as_ptr(), bytes.len()) }
    }

    fn step(&mut self, slot: usize) -> Answer {
        unsafe { diverter_step(self, slot) }
    }
}

fn envelope(body: &[u8]) -> Vec<u8> {
    let length = u16::try_from(1 + body.len()).expect("a body that an envelope holds");
    [&length.to_be_bytes()[..], &[1], body].concat()
}

fn hall() -> Vec<u8> {
    let mut policies = [0; 32 * CONTROLLERS];
    for (controller, name, times) in
        [(ENTRANCE, START_BELT, 2), (ENTRANCE, SORTER, 1), (SORTER, PUSH, 1), (SORTER, PIER, 1), (PIER, OPEN_GATE, 1)]
    {
        policies[32 * usize::from(controller - ENTRANCE) + usize::from(name)] = times;
    }
    envelope(&[&[CONTROLLERS as u8][..], &[GOOD; CONTROLLERS * CONTROLLERS], &policies].concat())
}

fn show(what: &str, answer: &Answer) {
    let mut line = format!("{what}: {}", answer.number);
    for (words, field) in [("at", &answer.controller), ("used", &answer.name), ("new pass", &answer.fresh)] {
        if field.present == 1 {
            line += &format!(", {words} {}", field.value);
        }
    }
    println!("{line}");
}

fn main() {
    let mut net = Net::empty();
    show("set-up", &net.set_up(&hall()));

    // Starts the belt, goes to the sorter to push once and on to the pier to open the gate. Each slip says what the
    // carried program needs there.
    let good = [1, START_BELT, 4, SORTER, 2, PUSH, 1, PIER, 1, 1, PUSH, 4, PIER, 1, OPEN_GATE, 1, 1, OPEN_GATE, 0];
    show("a bag", &net.launch(ENTRANCE, &envelope(&good)));

    // Pushes twice at the sorter, though its slip says once.
    let dishonest = [4, SORTER, 1, PUSH, 1, 1, PUSH, 1, PUSH, 0];
    show("a bag with a false slip", &net.launch(ENTRANCE, &envelope(&dishonest)));

    // Starts the belt three times, where two are allowed.
    let greedy = [1, START_BELT, 1, START_BELT, 1, START_BELT, 0];
    show("a bag that wants too much", &net.launch(ENTRANCE, &envelope(&greedy)));

    loop {
        let answer = net.step(0);
        show("step", &answer);
        if answer.number != 0 {
            break;
        }
    }
}
