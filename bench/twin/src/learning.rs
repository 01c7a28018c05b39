//! What is learned of the states that a walk without a plan has listed.

use crate::detectors::Detector;
use crate::model::Row;
use crate::rules::covers;

/// The parts that are kept in the end, in list order, and how many entries they regained.
#[derive(Clone, PartialEq, Eq, Debug)]
pub struct Learned {
    pub parts: Vec<Row>,
    pub entries: usize,
}

/// A progression of a part, and the place of a part that covers it. A progression that a row of the book
/// covers, or that the detector calls dead where no part covers it, does not lead out whatever the parts
/// regain, and is not held.
#[derive(Clone, Copy)]
struct Covered {
    onward: Row,
    by: usize,
}

/// The state's entry of the lowest variable on which it disagrees with the goal.
fn first_part(state: &Row, goal: &Row) -> Row {
    match state.lowest_disagreement(goal) {
        Some(variable) => with_entry_of(&Row::open(), state, variable),
        None => *state,
    }
}

/// A part with a state's entry of a variable beside its own.
fn with_entry_of(part: &Row, state: &Row, variable: usize) -> Row {
    state.entry(variable).map_or(*part, |value| part.with(variable, value))
}

/// Learns of at most 256 listed states: each keeps at first its first part; while some part that is
/// kept breaks rule 2 among the book's rows and all the parts, the lowest listed state so affected
/// regains its lowest missing entry.
///
/// Of a part that was seen to keep rule 2 it is remembered by which parts its progressions are covered.
/// Where one of those regains an entry, it is asked whether it still covers, or which part does.
pub fn learn(detector: &Detector, held: &[Row], states: &[Row]) -> Learned {
    let goal = detector.model().goal();
    let mut parts: Vec<Row> = states.iter().map(|state| first_part(state, goal)).collect();
    let mut kept: Vec<Option<Vec<Covered>>> = vec![None; states.len()];
    let mut entries = 0;
    while let Some(place) = lowest_that_breaks_rule_2(detector, held, &parts, &mut kept) {
        match states[place].lowest_missing_in(&parts[place]) {
            Some(variable) => parts[place] = with_entry_of(&parts[place], &states[place], variable),
            None => break,
        }
        entries += 1;
        for looked_at in &mut kept {
            if let Some(list) = looked_at {
                if !still_covered(detector, &parts, place, list) {
                    *looked_at = None;
                }
            }
        }
    }
    Learned { parts, entries }
}

/// The lowest place whose part breaks rule 2. Fills in what covers the progressions of lower ones.
fn lowest_that_breaks_rule_2(
    detector: &Detector,
    held: &[Row],
    parts: &[Row],
    kept: &mut [Option<Vec<Covered>>],
) -> Option<usize> {
    for place in 0..parts.len() {
        if kept[place].is_none() {
            kept[place] = covered_progressions(detector, held, parts, &parts[place]);
            if kept[place].is_none() {
                return Some(place);
            }
        }
    }
    None
}

/// The progressions of a part and what covers them; none if one of them leads out.
fn covered_progressions(detector: &Detector, held: &[Row], parts: &[Row], part: &Row) -> Option<Vec<Covered>> {
    let mut list: Vec<Covered> = Vec::new();
    for onward in detector.model().moves().iter().filter_map(|step| step.progression(part)) {
        if list.iter().any(|known| known.onward == onward) || covers(held, &onward) {
            continue;
        }
        match last_that_covers(parts, &onward) {
            Some(by) => list.push(Covered { onward, by }),
            None if detector.calls_dead(&onward) => {}
            None => return None,
        }
    }
    Some(list)
}

/// Whether the progressions that a part covered are covered still, now that it has regained an entry:
/// by it, by another part, or called dead.
fn still_covered(detector: &Detector, parts: &[Row], changed: usize, list: &mut Vec<Covered>) -> bool {
    let mut all = true;
    list.retain_mut(|known| {
        if known.by != changed || parts[changed].contained_in(&known.onward) {
            return true;
        }
        match last_that_covers(parts, &known.onward) {
            Some(by) => {
                known.by = by;
                true
            }
            None => {
                all = all && detector.calls_dead(&known.onward);
                false
            }
        }
    });
    all
}

/// The last part that covers a row. Those at the end have mostly regained least, and cover most.
fn last_that_covers(parts: &[Row], row: &Row) -> Option<usize> {
    parts.iter().rposition(|part| part.contained_in(row))
}
