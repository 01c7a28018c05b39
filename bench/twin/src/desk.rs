//! A sheet carried out.

use crate::book::{Book, BOOK_ROWS};
use crate::detectors::Detector;
use crate::lines::Line;
use crate::model::{Model, Row};
use crate::refusal::{Refusal, Refused};
use crate::sheet::{read, Command, SHEET_BYTES};
use std::io::{self, Write};
use std::mem::take;

/// A list has at most so many rows.
const LIST_ROWS: usize = 256;
const _: () = assert!(LIST_ROWS == BOOK_ROWS);

/// How far a sheet has come.
enum Stage {
    /// `V` may stand.
    Variables(Model),
    /// A move is begun: `P` and `E` may stand.
    Moves(Model),
    /// `S` and `G` may stand.
    Ends(Model),
    /// The model is sealed, and `D` has to stand.
    Sealed(Model),
    /// A book is open.
    Orders(Box<Orders>),
}

/// What stands behind the detector: the book, the row in hand and the list.
struct Orders {
    book: Book,
    hand: Row,
    list: Vec<Row>,
}

/// Carries out a sheet, and writes its lines.
pub fn carry_out(sheet: &[u8], out: &mut impl Write) -> io::Result<()> {
    let last = match lines_before_the_last(sheet, out)? {
        Ok(()) => Line::End,
        Err((refusal, place)) => Line::Stop { refusal, place },
    };
    writeln!(out, "{last}")
}

/// Carries out one command after another. Answers how the sheet comes to its end: done, or the refusal
/// with its place.
fn lines_before_the_last(sheet: &[u8], out: &mut impl Write) -> io::Result<Result<(), (Refusal, usize)>> {
    if sheet.len() > SHEET_BYTES {
        return Ok(Err((Refusal::TooMany, SHEET_BYTES)));
    }
    let mut stage = Stage::Variables(Model::default());
    let mut rest = sheet;
    while !(rest.is_empty() && stage.may_end()) {
        let place = sheet.len() - rest.len();
        let (command, behind) = match read(rest) {
            Ok(reading) => reading,
            Err(Refusal::SheetEnds) => return Ok(Err((Refusal::SheetEnds, sheet.len()))),
            Err(refusal) => return Ok(Err((refusal, place))),
        };
        match stage.carried_on(command) {
            Ok((next, line)) => {
                stage = next;
                if let Some(line) = line {
                    writeln!(out, "{line}")?;
                }
            }
            Err(refusal) => return Ok(Err((refusal, place))),
        }
        rest = behind;
    }
    Ok(Ok(()))
}

impl Stage {
    /// Whether a sheet may end here.
    fn may_end(&self) -> bool {
        matches!(self, Stage::Orders(_))
    }

    /// Carries out a command: the stage behind it, and the line that it prints, if it prints one.
    fn carried_on(self, command: Command) -> Result<(Stage, Option<Line>), Refusal> {
        match (self, command) {
            (Stage::Variables(mut model), Command::Variable { size }) => {
                model.name_variable(size).map(|()| (Stage::Variables(model), None))
            }
            (Stage::Variables(mut model) | Stage::Moves(mut model), Command::Move) => {
                model.begin_move().map(|()| (Stage::Moves(model), None))
            }
            (Stage::Moves(mut model), Command::Condition(entry)) => {
                model.condition(entry).map(|()| (Stage::Moves(model), None))
            }
            (Stage::Moves(mut model), Command::Effect(entry)) => {
                model.effect(entry).map(|()| (Stage::Moves(model), None))
            }
            (Stage::Variables(mut model) | Stage::Moves(mut model) | Stage::Ends(mut model), Command::Start(entry)) => {
                model.start_entry(entry).map(|()| (Stage::Ends(model), None))
            }
            (Stage::Variables(mut model) | Stage::Moves(mut model) | Stage::Ends(mut model), Command::Goal(entry)) => {
                model.goal_entry(entry).map(|()| (Stage::Ends(model), None))
            }
            (Stage::Variables(model) | Stage::Moves(model) | Stage::Ends(model), Command::Seal) => {
                model.may_be_sealed()?;
                let line = Line::Model { variables: model.variables(), moves: model.moves().len() };
                Ok((Stage::Sealed(model), Some(line)))
            }
            (Stage::Sealed(model), Command::Detector { kind, operands }) => {
                let book = Book::open(Detector::make(model, kind, operands)?);
                let orders = Orders { book, hand: Row::open(), list: Vec::new() };
                Ok((Stage::Orders(Box::new(orders)), None))
            }
            (Stage::Orders(mut orders), command) => {
                let line = orders.obey(command)?;
                Ok((Stage::Orders(orders), line))
            }
            _ => Err(Refusal::OutOfTurn),
        }
    }
}

impl Orders {
    /// Carries out a command behind the detector.
    fn obey(&mut self, command: Command) -> Result<Option<Line>, Refusal> {
        match command {
            Command::Enter(entry) => {
                self.hand = self.book.model().entered(&self.hand, entry)?;
                Ok(None)
            }
            Command::Next if self.list.len() == LIST_ROWS => Err(Refusal::TooMany),
            Command::Next => {
                self.list.push(take(&mut self.hand));
                Ok(None)
            }
            Command::Offer => {
                let list = take(&mut self.list);
                Ok(Some(told(self.book.offer(&list).map(|added| Line::Offered { added }))))
            }
            Command::Settle => {
                let list = take(&mut self.list);
                let settled = self.book.settle(&list);
                Ok(Some(told(settled.map(|(added, rounds)| Line::Settled { added, rounds }))))
            }
            Command::Judge => {
                let row = take(&mut self.hand);
                Ok(Some(Line::Judged { dead: self.book.judge(&row) }))
            }
            Command::Probe => {
                let row = take(&mut self.hand);
                Ok(Some(told(self.book.probe(&row).map(Line::Probed))))
            }
            Command::Write => Ok(Some(Line::Written(self.book.written()))),
            _ => Err(Refusal::OutOfTurn),
        }
    }
}

/// The line of an order that may be refused.
fn told(answer: Result<Line, Refused>) -> Line {
    answer.unwrap_or_else(Line::Refused)
}
