//! The header's layout and numbers, as a C compiler sees them, held to those of this program and of the second one.

use crate::proved::{Answer, Field};
use crate::record;
use second::envelope::{LENGTH_BYTES, LONGEST_PROGRAM, LONGEST_SET_UP};
use second::reply::Refusal;
use std::mem::size_of;

extern "C" {
    fn diverter_layout(which: usize) -> usize;
}

/// In the order of layout.c.
fn expected() -> Vec<usize> {
    let mut all = vec![
        record::SIZE,
        record::N,
        record::TRUST,
        record::POLICIES,
        record::THREADS,
        record::PLACES_AT,
        record::LAST,
        record::THREAD_SIZE,
        record::PLACE,
        record::POSITION,
        record::CONTROLLER,
        record::PASS,
    ];
    all.extend(answer());
    all.extend([
        LENGTH_BYTES + LONGEST_PROGRAM,
        LENGTH_BYTES + LONGEST_SET_UP,
    ]);
    all.extend(NUMBERS.iter().map(|&refusal| refusal as usize));
    all
}

fn answer() -> [usize; 10] {
    let field = Field {
        present: 0,
        value: 0,
    };
    let answer = Answer {
        number: 0,
        over: 0,
        pass: field,
        controller: field,
        name: field,
        fresh: field,
    };
    let start = &answer as *const Answer as usize;
    let from = |part: usize| part - start;
    [
        size_of::<Answer>(),
        from(&answer.number as *const u8 as usize),
        from(&answer.over as *const u8 as usize),
        from(&answer.pass as *const Field as usize),
        from(&answer.controller as *const Field as usize),
        from(&answer.name as *const Field as usize),
        from(&answer.fresh as *const Field as usize),
        size_of::<Field>(),
        from(&answer.pass.present as *const u8 as usize)
            - from(&answer.pass as *const Field as usize),
        from(&answer.pass.value as *const u16 as usize)
            - from(&answer.pass as *const Field as usize),
    ]
}

const NUMBERS: [Refusal; 17] = [
    Refusal::TooFewBytes,
    Refusal::BadLength,
    Refusal::BadVersion,
    Refusal::TreeCut,
    Refusal::NoMeaning,
    Refusal::TreeLeftOver,
    Refusal::NeedDoesNotFit,
    Refusal::NotHonest,
    Refusal::NoFreeSlot,
    Refusal::NoFreePlace,
    Refusal::NoThread,
    Refusal::SlipDoesNotFit,
    Refusal::AlreadyThere,
    Refusal::BadSetUp,
    Refusal::NotCoherent,
    Refusal::NoSuchController,
    Refusal::NotSound,
];

/// The first line of layout.c that says something else.
pub fn difference() -> Option<String> {
    let header = |which| unsafe { diverter_layout(which) };
    let all = expected();
    let differs = |&which: &usize| all.get(which).copied().unwrap_or(usize::MAX) != header(which);
    (0..=all.len()).find(differs).map(|which| {
        format!(
            "the header's layout: entry {} of layout.c is {}, here {:?}",
            which,
            header(which),
            all.get(which)
        )
    })
}
