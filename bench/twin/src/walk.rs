//! Walks over states.

use crate::model::{Model, Row};
use std::collections::HashSet;

/// A walk has at most so many places for the states that it lists.
pub const PLACES: usize = 256;

/// A state that a walk has come to, with the place and the move that it came from; none for the first.
#[derive(Clone, Copy, PartialEq, Eq, Debug)]
pub struct Walked {
    pub state: Row,
    pub came: Option<(usize, usize)>,
}

/// How a walk ends.
#[derive(Clone, PartialEq, Eq, Debug)]
pub enum Ended {
    /// A state that contains the goal was come to, by the moves of the plan.
    Plan(Vec<usize>),
    /// A state had to be listed, and no place was left.
    WantsPlace,
    /// Every listed state was taken.
    NoPlan,
}

/// Walks from a state past all that is called dead. Answers the listed states, in order of arrival,
/// and how the walk ended.
pub fn walk(model: &Model, calls_dead: impl Fn(&Row) -> bool, state: &Row) -> (Vec<Walked>, Ended) {
    let mut listed = vec![Walked { state: *state, came: None }];
    if model.goal().contained_in(state) {
        return (listed, Ended::Plan(Vec::new()));
    }
    let mut known = HashSet::from([*state]);
    let mut taken = 0;
    while taken < listed.len() {
        let from = listed[taken].state;
        for (number, step) in model.moves().iter().enumerate() {
            let Some(onward) = step.progression(&from) else { continue };
            if model.goal().contained_in(&onward) {
                let plan = way(&listed, Some((taken, number)));
                return (listed, Ended::Plan(plan));
            }
            if known.contains(&onward) || calls_dead(&onward) {
                continue;
            }
            if listed.len() == PLACES {
                return (listed, Ended::WantsPlace);
            }
            known.insert(onward);
            listed.push(Walked { state: onward, came: Some((taken, number)) });
        }
        taken += 1;
    }
    (listed, Ended::NoPlan)
}

/// The moves by which a walk came somewhere, the last of them from a place by a move.
fn way(listed: &[Walked], last: Option<(usize, usize)>) -> Vec<usize> {
    let mut moves = Vec::new();
    let mut came = last;
    while let Some((place, number)) = came {
        moves.push(number);
        came = listed[place].came;
    }
    moves.reverse();
    moves
}
