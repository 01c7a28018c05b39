//! The lines that are printed.

use crate::book::Probed;
use crate::refusal::{Refusal, Refused};
use std::fmt::{Display, Formatter, Result};

/// What a line tells.
#[derive(Clone, PartialEq, Eq, Debug)]
pub enum Line {
    Model { variables: usize, moves: usize },
    Judged { dead: bool },
    Offered { added: usize },
    Settled { added: usize, rounds: usize },
    Probed(Probed),
    Written(Vec<u8>),
    Refused(Refused),
    Stop { refusal: Refusal, place: usize },
    End,
}

/// A number, or a stroke for what is not told.
struct Told(Option<usize>);

impl Display for Told {
    fn fmt(&self, f: &mut Formatter<'_>) -> Result {
        match self.0 {
            Some(number) => write!(f, "{number}"),
            None => f.write_str("-"),
        }
    }
}

impl Display for Line {
    /// The bytes of the line without its end.
    fn fmt(&self, f: &mut Formatter<'_>) -> Result {
        match self {
            Line::Model { variables, moves } => write!(f, "model {variables} {moves}"),
            Line::Judged { dead: true } => f.write_str("judge dead"),
            Line::Judged { dead: false } => f.write_str("judge silent"),
            Line::Offered { added } => write!(f, "offer {added}"),
            Line::Settled { added, rounds } => write!(f, "settle {added} {rounds}"),
            Line::Probed(Probed::Dead { states, rows, entries }) => {
                write!(f, "probe dead {states} {rows} {entries}")
            }
            Line::Probed(Probed::Plan { states, moves }) => {
                write!(f, "probe plan {states} {}", moves.len())?;
                moves.iter().try_for_each(|number| write!(f, " {number}"))
            }
            Line::Written(bytes) => {
                f.write_str("write")?;
                bytes.iter().try_for_each(|byte| write!(f, " {byte:02x}"))
            }
            Line::Refused(refused) => {
                let number = refused.refusal.number();
                write!(f, "refused {number} {} {}", Told(refused.row), Told(refused.step))
            }
            Line::Stop { refusal, place } => write!(f, "stop {} {place}", refusal.number()),
            Line::End => f.write_str("end"),
        }
    }
}
