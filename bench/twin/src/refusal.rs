//! The causes for which something is refused, and their numbers.

/// Why a command, an order or a sheet is refused.
#[derive(Clone, Copy, PartialEq, Eq, Debug)]
pub enum Refusal {
    SheetEnds,
    UnknownCommand,
    OutOfTurn,
    TooMany,
    SizeOutOfRange,
    NoSuchVariable,
    ValueTooLarge,
    EntryTwice,
    StartIncomplete,
    UnknownKind,
    WrongOperands,
    MeetsGoal,
    LeadsOut,
    BookFull,
    OpenEntry,
    WorkListFull,
}

impl Refusal {
    /// The number by which it is told.
    pub fn number(self) -> u8 {
        match self {
            Refusal::SheetEnds => 1,
            Refusal::UnknownCommand => 2,
            Refusal::OutOfTurn => 3,
            Refusal::TooMany => 4,
            Refusal::SizeOutOfRange => 5,
            Refusal::NoSuchVariable => 6,
            Refusal::ValueTooLarge => 7,
            Refusal::EntryTwice => 8,
            Refusal::StartIncomplete => 9,
            Refusal::UnknownKind => 10,
            Refusal::WrongOperands => 11,
            Refusal::MeetsGoal => 12,
            Refusal::LeadsOut => 13,
            Refusal::BookFull => 14,
            Refusal::OpenEntry => 15,
            Refusal::WorkListFull => 16,
        }
    }
}

/// A refused order: the refusal and, where these are told, the place of the row in its list and the
/// number of the move.
#[derive(Clone, Copy, PartialEq, Eq, Debug)]
pub struct Refused {
    pub refusal: Refusal,
    pub row: Option<usize>,
    pub step: Option<usize>,
}

impl From<Refusal> for Refused {
    /// A refusal of which neither row nor move is told.
    fn from(refusal: Refusal) -> Refused {
        Refused { refusal, row: None, step: None }
    }
}
