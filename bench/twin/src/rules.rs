//! The two rules that bind a set of rows.

use crate::detectors::Detector;
use crate::model::Row;

/// A set of places below 256.
#[derive(Clone, Copy, PartialEq, Eq, Debug, Default)]
pub struct Places([u64; 4]);

impl Places {
    pub fn add(&mut self, place: usize) {
        self.0[place / 64] |= 1 << (place % 64);
    }

    /// Whether the two sets have a place in common.
    pub fn meets(&self, other: &Places) -> bool {
        self.0.iter().zip(&other.0).any(|(a, b)| a & b != 0)
    }
}

/// Whether some row of a set is contained in a row.
pub fn covers(set: &[Row], row: &Row) -> bool {
    set.iter().any(|covering| covering.contained_in(row))
}

/// Rule 1: the row disagrees with the goal.
pub fn keeps_rule_1(detector: &Detector, row: &Row) -> bool {
    row.disagrees(detector.model().goal())
}

/// The lowest move that leads out: it is applicable to the row, and its progression is not called dead
/// and not covered by either of two sets. None if the row keeps rule 2 in what they make up.
pub fn leads_out(detector: &Detector, held: &[Row], list: &[Row], row: &Row) -> Option<usize> {
    detector.model().moves().iter().position(|step| match step.progression(row) {
        Some(onward) => !(covers(held, &onward) || covers(list, &onward) || detector.calls_dead(&onward)),
        None => false,
    })
}

/// Whether a row keeps rule 2, and by which rows of a list: for each move that the rows held do not
/// cover, the place of a row that does, unless the detector alone tells that it does not lead out.
/// `listed` says which places of the list count. None if the row breaks rule 2.
pub fn relied_on(
    detector: &Detector,
    held: &[Row],
    list: &[Row],
    listed: impl Fn(usize) -> bool,
    row: &Row,
) -> Option<Places> {
    let mut relied = Places::default();
    for onward in detector.model().moves().iter().filter_map(|step| step.progression(row)) {
        if covers(held, &onward) {
            continue;
        }
        match (0..list.len()).find(|&place| listed(place) && list[place].contained_in(&onward)) {
            Some(place) => relied.add(place),
            None if detector.calls_dead(&onward) => {}
            None => return None,
        }
    }
    Some(relied)
}
