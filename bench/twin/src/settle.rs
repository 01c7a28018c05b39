//! The largest selection of candidates that keeps both rules with the rows of a book.

use crate::detectors::Detector;
use crate::model::Row;
use crate::rules::{keeps_rule_1, relied_on, Places};

/// The candidates that are left unmarked, in list order, and the rounds that it took.
#[derive(Clone, PartialEq, Eq, Debug)]
pub struct Settled {
    pub unmarked: Vec<Row>,
    pub rounds: usize,
}

/// Marks of at most 256 candidates those that do not disagree with the goal; then, in rounds, those
/// from which a move leads to what the book does not call dead and no unmarked candidate covers, by
/// the marks with which the round began; until a round marks nothing. That one is counted.
///
/// Of a candidate that a round leaves unmarked it is remembered on which candidates that relies: a
/// later round need look at it again only if one of those was marked.
pub fn settle(detector: &Detector, held: &[Row], candidates: &[Row]) -> Settled {
    let mut unmarked: Vec<bool> = candidates.iter().map(|row| keeps_rule_1(detector, row)).collect();
    let mut relies: Vec<Option<Places>> = vec![None; candidates.len()];
    let mut rounds = 0;
    loop {
        rounds += 1;
        let marked = round(detector, held, candidates, &unmarked, &mut relies);
        if marked.is_empty() {
            break;
        }
        let mut places = Places::default();
        for place in marked {
            unmarked[place] = false;
            places.add(place);
        }
        for relied in &mut relies {
            if relied.is_some_and(|on| on.meets(&places)) {
                *relied = None;
            }
        }
    }
    let left = candidates.iter().zip(&unmarked).filter(|(_, &stays)| stays).map(|(row, _)| *row).collect();
    Settled { unmarked: left, rounds }
}

/// The places that one round marks, by the marks with which it begins.
fn round(
    detector: &Detector,
    held: &[Row],
    candidates: &[Row],
    unmarked: &[bool],
    relies: &mut [Option<Places>],
) -> Vec<usize> {
    let mut marked = Vec::new();
    for place in 0..candidates.len() {
        if unmarked[place] && relies[place].is_none() {
            relies[place] = relied_on(detector, held, candidates, |other| unmarked[other], &candidates[place]);
            if relies[place].is_none() {
                marked.push(place);
            }
        }
    }
    marked
}
