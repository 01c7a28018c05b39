//! The detectors that ship: bare, relaxed and pattern.

use crate::model::{Model, Row, VALUES, VARIABLES};
use crate::refusal::Refusal;

/// The operand that stands for no variable.
const NO_VARIABLE: u8 = 255;
/// A pattern has at most so many cuts.
const CUTS: usize = 512;

/// A detector: it carries a sealed model and calls some of the model's rows dead.
pub struct Detector {
    model: Model,
    kind: Kind,
}

/// What a detector goes by.
enum Kind {
    Bare,
    Relaxed(Relaxed),
    Pattern(Pattern),
}

impl Detector {
    /// The detector of a kind with its operands: 10 or 11 if there is none.
    pub fn make(model: Model, kind: u8, operands: [u8; 3]) -> Result<Detector, Refusal> {
        let kind = match kind {
            0 => no_operands(operands).map(|()| Kind::Bare),
            1 => no_operands(operands).map(|()| Kind::Relaxed(Relaxed::of(&model))),
            2 => pattern_variables(&model, operands).map(|chosen| Kind::Pattern(Pattern::over(&model, &chosen))),
            _ => Err(Refusal::UnknownKind),
        }?;
        Ok(Detector { model, kind })
    }

    /// The model that is carried.
    pub fn model(&self) -> &Model {
        &self.model
    }

    /// Whether a row of the model is called dead.
    pub fn calls_dead(&self, row: &Row) -> bool {
        match &self.kind {
            Kind::Bare => false,
            Kind::Relaxed(relaxed) => relaxed.calls_dead(&self.model, row),
            Kind::Pattern(pattern) => pattern.calls_dead(row),
        }
    }
}

/// The bare and the relaxed detector take no variable.
fn no_operands(operands: [u8; 3]) -> Result<(), Refusal> {
    if operands == [NO_VARIABLE; 3] {
        Ok(())
    } else {
        Err(Refusal::WrongOperands)
    }
}

/// The variables of a pattern: one to three of the model, rising, behind them none, with a product of
/// sizes of at most 512.
fn pattern_variables(model: &Model, operands: [u8; 3]) -> Result<Vec<usize>, Refusal> {
    let count = operands.iter().take_while(|&&operand| operand != NO_VARIABLE).count();
    let (chosen, behind) = operands.split_at(count);
    let rising = chosen.windows(2).all(|pair| pair[0] < pair[1]);
    let product = chosen.iter().try_fold(1, |product, &variable| {
        model.size(usize::from(variable)).map(|size| product * usize::from(size))
    });
    match product {
        Some(product) if count > 0 && rising && product <= CUTS && behind.iter().all(|&o| o == NO_VARIABLE) => {
            Ok(chosen.iter().map(|&variable| usize::from(variable)).collect())
        }
        _ => Err(Refusal::WrongOperands),
    }
}

/// A set of facts: for each variable sixteen bits, one for each value, four variables to a word.
#[derive(Clone, Copy, PartialEq, Eq)]
struct Facts([u64; VARIABLES * VALUES as usize / 64]);

impl Facts {
    fn none() -> Facts {
        Facts([0; VARIABLES * VALUES as usize / 64])
    }

    /// The facts that a row gives.
    fn of(row: &Row) -> Facts {
        let mut facts = Facts::none();
        for (variable, value) in row.entries() {
            facts.add(variable, 1 << value);
        }
        facts
    }

    /// Adds values of a variable, a bit each.
    fn add(&mut self, variable: usize, values: u64) {
        self.0[variable / 4] |= values << (16 * (variable % 4));
    }

    fn add_all(&mut self, other: &Facts) {
        for (word, more) in self.0.iter_mut().zip(&other.0) {
            *word |= more;
        }
    }

    fn has_all(&self, other: &Facts) -> bool {
        self.0.iter().zip(&other.0).all(|(word, asked)| asked & !word == 0)
    }
}

/// The relaxed detector: of each move the condition facts and the effect facts, and the goal facts.
struct Relaxed {
    moves: Vec<(Facts, Facts)>,
    goal: Facts,
}

impl Relaxed {
    fn of(model: &Model) -> Relaxed {
        let facts = |step: &crate::model::Move| (Facts::of(&step.conditions), Facts::of(&step.effects));
        Relaxed { moves: model.moves().iter().map(facts).collect(), goal: Facts::of(model.goal()) }
    }

    /// Whether some goal fact is not reached from the row.
    fn calls_dead(&self, model: &Model, row: &Row) -> bool {
        !self.reached(model, row).has_all(&self.goal)
    }

    /// At first the facts of the row's entries and all facts of its open variables; then a move whose
    /// condition facts are all reached adds its effect facts, until none is added.
    fn reached(&self, model: &Model, row: &Row) -> Facts {
        let mut reached = Facts::none();
        for variable in 0..model.variables() {
            let values = match (row.entry(variable), model.size(variable)) {
                (Some(value), _) => 1 << value,
                (None, Some(size)) => (1 << size) - 1,
                (None, None) => 0,
            };
            reached.add(variable, values);
        }
        loop {
            let before = reached;
            for (conditions, effects) in &self.moves {
                if reached.has_all(conditions) {
                    reached.add_all(effects);
                }
            }
            if reached == before {
                return reached;
            }
        }
    }
}

/// The pattern detector: for each cut that gives all the pattern's variables, whether of the cuts
/// reached from it, itself counted, none contains the cut goal.
struct Pattern {
    variables: Vec<(usize, usize)>,
    dead: Vec<bool>,
}

impl Pattern {
    /// Looks back from the cuts that contain the cut goal: a cut is alive if it is one of them, or if a
    /// cut move leads from it to one that is alive.
    fn over(model: &Model, chosen: &[usize]) -> Pattern {
        let size = |variable: usize| model.size(variable).map_or(0, usize::from);
        let variables: Vec<_> = chosen.iter().map(|&variable| (variable, size(variable))).collect();
        let mut pattern = Pattern { variables, dead: Vec::new() };
        let cuts = pattern.cuts();
        let mut leads_here = vec![Vec::new(); cuts.len()];
        for (place, cut) in cuts.iter().enumerate() {
            for step in model.moves() {
                // The cut of what a move makes of a cut is what the cut move makes of it, but a cut
                // leaves open what is not in the pattern, so that conditions there do not hinder it.
                let onward = step.progression(cut).and_then(|row| pattern.place(&row));
                if let Some(onward) = onward {
                    leads_here[onward].push(place);
                }
            }
        }
        let mut dead = vec![true; cuts.len()];
        let all_given = cuts.first().copied().unwrap_or_default();
        let goal = model.goal().cut(&all_given);
        let mut to_take: Vec<usize> = (0..cuts.len()).filter(|&place| goal.contained_in(&cuts[place])).collect();
        while let Some(place) = to_take.pop() {
            if dead[place] {
                dead[place] = false;
                to_take.extend(leads_here[place].iter().filter(|&&before| dead[before]));
            }
        }
        pattern.dead = dead;
        pattern
    }

    /// All cuts that give the pattern's variables, each at its place.
    fn cuts(&self) -> Vec<Row> {
        let mut cuts = vec![Row::open()];
        for &(variable, size) in &self.variables {
            cuts = cuts.iter().flat_map(|cut| (0..size).map(move |value| cut.with(variable, value as u8))).collect();
        }
        cuts
    }

    /// The place of a row's cut, if the row gives all the pattern's variables.
    fn place(&self, row: &Row) -> Option<usize> {
        self.variables.iter().try_fold(0, |place, &(variable, size)| {
            row.entry(variable).map(|value| place * size + usize::from(value))
        })
    }

    fn calls_dead(&self, row: &Row) -> bool {
        self.place(row).is_some_and(|place| self.dead[place])
    }
}
