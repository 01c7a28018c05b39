//! Rows, moves and models.

use crate::refusal::Refusal;
use crate::sheet::Entry;

/// A model has at most so many variables.
pub const VARIABLES: usize = 32;
/// A variable has at most so many values.
pub const VALUES: u8 = 16;
/// A model has at most so many moves.
pub const MOVES: usize = 128;

/// A row: an entry for each of 32 variables, in four bits each. Where a variable is given, its four
/// bits of `given` are set and `values` has its value; where it is open, both are zero there. So two
/// rows are equal exactly if their entries are.
#[derive(Clone, Copy, PartialEq, Eq, Hash, Debug, Default)]
pub struct Row {
    given: u128,
    values: u128,
}

/// The four bits of a variable.
fn bits(variable: usize) -> u128 {
    0xf << (4 * variable)
}

impl Row {
    /// The row that gives nothing.
    pub fn open() -> Row {
        Row::default()
    }

    /// What the row gives for a variable.
    pub fn entry(&self, variable: usize) -> Option<u8> {
        if self.given & bits(variable) == 0 {
            None
        } else {
            Some((self.values >> (4 * variable)) as u8 & 0xf)
        }
    }

    /// The row with one entry written over.
    pub fn with(&self, variable: usize, value: u8) -> Row {
        Row {
            given: self.given | bits(variable),
            values: self.values & !bits(variable) | u128::from(value) << (4 * variable),
        }
    }

    /// The row with its entries of the variables that another gives, and no others.
    pub fn cut(&self, other: &Row) -> Row {
        Row { given: self.given & other.given, values: self.values & other.given }
    }

    /// Whether another row has every given entry of this one.
    pub fn contained_in(&self, other: &Row) -> bool {
        (self.given & !other.given) | ((self.values ^ other.values) & self.given) == 0
    }

    /// The lowest variable that both rows give, with different values.
    pub fn lowest_disagreement(&self, other: &Row) -> Option<usize> {
        lowest_variable((self.values ^ other.values) & self.given & other.given)
    }

    /// Whether both give some variable, with different values.
    pub fn disagrees(&self, other: &Row) -> bool {
        (self.values ^ other.values) & self.given & other.given != 0
    }

    /// The lowest variable that this row gives and another leaves open.
    pub fn lowest_missing_in(&self, other: &Row) -> Option<usize> {
        lowest_variable(self.given & !other.given)
    }

    /// The entries of this row, and where it is open those of another.
    pub fn over(&self, other: &Row) -> Row {
        Row { given: self.given | other.given, values: self.values | other.values & !self.given }
    }

    /// The given entries by rising variable.
    pub fn entries(self) -> impl Iterator<Item = (usize, u8)> {
        (0..VARIABLES).filter_map(move |variable| self.entry(variable).map(|value| (variable, value)))
    }
}

/// The variable of the lowest bit that is set.
fn lowest_variable(set: u128) -> Option<usize> {
    if set == 0 {
        None
    } else {
        Some(set.trailing_zeros() as usize / 4)
    }
}

/// A move: its conditions and its effects.
#[derive(Clone, Copy, PartialEq, Eq, Debug, Default)]
pub struct Move {
    pub conditions: Row,
    pub effects: Row,
}

impl Move {
    /// What the move makes of a row, if it is applicable to it: the effect if given, else the row's
    /// entry if given, else the condition if given, else open.
    pub fn progression(&self, row: &Row) -> Option<Row> {
        if self.conditions.disagrees(row) {
            None
        } else {
            Some(self.effects.over(&row.over(&self.conditions)))
        }
    }
}

/// A model, in hand or sealed.
#[derive(Clone, PartialEq, Eq, Debug, Default)]
pub struct Model {
    sizes: Vec<u8>,
    moves: Vec<Move>,
    start: Row,
    goal: Row,
}

impl Model {
    /// The number of variables.
    pub fn variables(&self) -> usize {
        self.sizes.len()
    }

    /// The size of a variable, if the model has it.
    pub fn size(&self, variable: usize) -> Option<u8> {
        self.sizes.get(variable).copied()
    }

    /// The moves by rising number.
    pub fn moves(&self) -> &[Move] {
        &self.moves
    }

    /// The goal.
    pub fn goal(&self) -> &Row {
        &self.goal
    }

    /// Whether a row of the model leaves no variable open.
    pub fn is_state(&self, row: &Row) -> bool {
        (0..self.variables()).all(|variable| row.entry(variable).is_some())
    }

    /// A row with an entry entered in it: 6, 7 or 8 if it may not be.
    pub fn entered(&self, row: &Row, entry: Entry) -> Result<Row, Refusal> {
        let variable = usize::from(entry.variable);
        let size = self.size(variable).ok_or(Refusal::NoSuchVariable)?;
        if entry.value >= size {
            Err(Refusal::ValueTooLarge)
        } else if row.entry(variable).is_some() {
            Err(Refusal::EntryTwice)
        } else {
            Ok(row.with(variable, entry.value))
        }
    }

    /// A variable more.
    pub fn name_variable(&mut self, size: u8) -> Result<(), Refusal> {
        if self.sizes.len() == VARIABLES {
            Err(Refusal::TooMany)
        } else if size == 0 || size > VALUES {
            Err(Refusal::SizeOutOfRange)
        } else {
            self.sizes.push(size);
            Ok(())
        }
    }

    /// A move more, without conditions and effects as yet.
    pub fn begin_move(&mut self) -> Result<(), Refusal> {
        if self.moves.len() == MOVES {
            Err(Refusal::TooMany)
        } else {
            self.moves.push(Move::default());
            Ok(())
        }
    }

    /// A condition of the move begun last; out of turn where none is begun.
    pub fn condition(&mut self, entry: Entry) -> Result<(), Refusal> {
        let last = self.moves.last().ok_or(Refusal::OutOfTurn)?;
        let conditions = self.entered(&last.conditions, entry)?;
        self.change_last(|last| last.conditions = conditions)
    }

    /// An effect of the move begun last; out of turn where none is begun.
    pub fn effect(&mut self, entry: Entry) -> Result<(), Refusal> {
        let last = self.moves.last().ok_or(Refusal::OutOfTurn)?;
        let effects = self.entered(&last.effects, entry)?;
        self.change_last(|last| last.effects = effects)
    }

    /// Changes the move begun last.
    fn change_last(&mut self, change: impl FnOnce(&mut Move)) -> Result<(), Refusal> {
        self.moves.last_mut().map(change).ok_or(Refusal::OutOfTurn)
    }

    /// An entry of the start.
    pub fn start_entry(&mut self, entry: Entry) -> Result<(), Refusal> {
        self.start = self.entered(&self.start, entry)?;
        Ok(())
    }

    /// An entry of the goal.
    pub fn goal_entry(&mut self, entry: Entry) -> Result<(), Refusal> {
        self.goal = self.entered(&self.goal, entry)?;
        Ok(())
    }

    /// Whether the model may be sealed: 9 if its start leaves a variable open.
    pub fn may_be_sealed(&self) -> Result<(), Refusal> {
        if self.is_state(&self.start) {
            Ok(())
        } else {
            Err(Refusal::StartIncomplete)
        }
    }
}

#[cfg(test)]
mod tests {
    use super::*;

    fn row(entries: &[(usize, u8)]) -> Row {
        entries.iter().fold(Row::open(), |row, &(variable, value)| row.with(variable, value))
    }

    #[test]
    fn entries_are_read_back() {
        let r = row(&[(0, 15), (31, 7)]);
        assert_eq!(r.entry(0), Some(15));
        assert_eq!(r.entry(1), None);
        assert_eq!(r.entry(31), Some(7));
        assert_eq!(r.with(0, 0).entry(0), Some(0));
        assert_eq!(r.entries().collect::<Vec<_>>(), vec![(0, 15), (31, 7)]);
    }

    #[test]
    fn value_zero_is_not_open() {
        assert!(!row(&[(2, 0)]).contained_in(&Row::open()));
        assert!(Row::open().contained_in(&row(&[(2, 0)])));
        assert!(!row(&[(2, 0)]).disagrees(&Row::open()));
        assert!(row(&[(2, 0)]).disagrees(&row(&[(2, 1)])));
    }

    #[test]
    fn a_progression_keeps_the_conditions_of_open_variables() {
        let step = Move { conditions: row(&[(1, 1)]), effects: row(&[(0, 1)]) };
        assert_eq!(step.progression(&row(&[(0, 0)])), Some(row(&[(0, 1), (1, 1)])));
        assert_eq!(step.progression(&row(&[(1, 0)])), None);
    }

    #[test]
    fn an_entry_is_refused_by_the_lowest_number() {
        let mut model = Model::default();
        model.name_variable(2).unwrap();
        let held = row(&[(0, 0)]);
        let enter = |variable, value| model.entered(&held, Entry { variable, value });
        assert_eq!(enter(1, 9), Err(Refusal::NoSuchVariable));
        assert_eq!(enter(0, 2), Err(Refusal::ValueTooLarge));
        assert_eq!(enter(0, 0), Err(Refusal::EntryTwice));
    }
}
