//! Reading one command of a sheet.

use crate::refusal::Refusal;

/// A sheet has at most so many bytes.
pub const SHEET_BYTES: usize = 65_536;

/// The eight bytes of a name are passed over: nothing that is printed depends on them.
const NAME_BYTES: usize = 8;

/// An entry as a command gives it, not yet looked at.
#[derive(Clone, Copy, PartialEq, Eq, Debug)]
pub struct Entry {
    pub variable: u8,
    pub value: u8,
}

/// A command with its operands, but for names.
#[derive(Clone, Copy, PartialEq, Eq, Debug)]
pub enum Command {
    Variable { size: u8 },
    Move,
    Condition(Entry),
    Effect(Entry),
    Start(Entry),
    Goal(Entry),
    Seal,
    Detector { kind: u8, operands: [u8; 3] },
    Enter(Entry),
    Next,
    Offer,
    Settle,
    Judge,
    Probe,
    Write,
}

/// How many bytes of operands follow a command byte; none if no command has the byte.
fn width(byte: u8) -> Option<usize> {
    match byte {
        b'V' => Some(1 + NAME_BYTES),
        b'A' => Some(NAME_BYTES),
        b'P' | b'E' | b'S' | b'G' | b'R' => Some(2),
        b'D' => Some(4),
        b'Z' | b'N' | b'O' | b'T' | b'J' | b'Q' | b'W' => Some(0),
        _ => None,
    }
}

/// The first command of some bytes and the bytes behind it. Of no bytes at all, too, it is said that
/// the sheet ends.
pub fn read(bytes: &[u8]) -> Result<(Command, &[u8]), Refusal> {
    let (&byte, behind) = bytes.split_first().ok_or(Refusal::SheetEnds)?;
    let width = width(byte).ok_or(Refusal::UnknownCommand)?;
    if behind.len() < width {
        return Err(Refusal::SheetEnds);
    }
    let (operands, rest) = behind.split_at(width);
    let entry = || Entry { variable: operands[0], value: operands[1] };
    let command = match byte {
        b'V' => Command::Variable { size: operands[0] },
        b'A' => Command::Move,
        b'P' => Command::Condition(entry()),
        b'E' => Command::Effect(entry()),
        b'S' => Command::Start(entry()),
        b'G' => Command::Goal(entry()),
        b'Z' => Command::Seal,
        b'D' => Command::Detector { kind: operands[0], operands: [operands[1], operands[2], operands[3]] },
        b'R' => Command::Enter(entry()),
        b'N' => Command::Next,
        b'O' => Command::Offer,
        b'T' => Command::Settle,
        b'J' => Command::Judge,
        b'Q' => Command::Probe,
        b'W' => Command::Write,
        _ => return Err(Refusal::UnknownCommand),
    };
    Ok((command, rest))
}

#[cfg(test)]
mod tests {
    use super::*;

    #[test]
    fn a_command_and_what_is_behind_it() {
        let entry = Entry { variable: 3, value: 1 };
        assert_eq!(read(&[0x52, 3, 1, 0x4e]), Ok((Command::Enter(entry), &[0x4e][..])));
    }

    #[test]
    fn an_unknown_byte_comes_before_the_end() {
        assert_eq!(read(&[0]), Err(Refusal::UnknownCommand));
        assert_eq!(read(&[0x56, 1]), Err(Refusal::SheetEnds));
        assert_eq!(read(&[]), Err(Refusal::SheetEnds));
    }
}
