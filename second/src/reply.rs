//! What a call answers: a number, the fields of the listing and how many passes were passed over.

/// Why a call is refused; each reason has the document's number.
#[derive(Clone, Copy, Debug, PartialEq, Eq)]
#[repr(u8)]
pub enum Refusal {
    TooFewBytes = 1,
    BadLength = 2,
    BadVersion = 3,
    TreeCut = 4,
    NoMeaning = 5,
    TreeLeftOver = 6,
    NeedDoesNotFit = 7,
    NotHonest = 8,
    NoFreeSlot = 9,
    NoFreePlace = 10,
    NoThread = 11,
    SlipDoesNotFit = 12,
    AlreadyThere = 13,
    BadSetUp = 14,
    NotCoherent = 15,
    NoSuchController = 16,
    NotSound = 99,
}

/// The answer to one call; a field that does not apply is `None`.
#[derive(Clone, Copy, Debug, Default, PartialEq, Eq)]
pub struct Reply {
    pub number: u8,
    /// Pass of the acting stay, as before a move.
    pub pass: Option<u16>,
    /// Controller of the acting stay, as before a move.
    pub controller: Option<u8>,
    /// The name used: an action or a departure's target.
    pub name: Option<u8>,
    pub new_pass: Option<u16>,
    /// How many carried numbers the new pass passed over, 0 where none is issued.
    pub passed_over: u8,
}

impl Reply {
    /// Done, with every field absent.
    pub fn done() -> Reply {
        Reply::default()
    }

    /// A refusal shows its number and nothing else.
    pub fn refused(refusal: Refusal) -> Reply {
        Reply {
            number: refusal as u8,
            ..Reply::default()
        }
    }

    pub fn is_done(&self) -> bool {
        self.number == 0
    }
}

impl From<Result<Reply, Refusal>> for Reply {
    fn from(outcome: Result<Reply, Refusal>) -> Reply {
        outcome.unwrap_or_else(Reply::refused)
    }
}
