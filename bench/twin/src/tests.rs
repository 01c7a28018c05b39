//! The examples of the documentation, and what is done the short way held against the straight way.

use crate::book::Book;
use crate::desk::carry_out;
use crate::detectors::Detector;
use crate::learning::{learn, Learned};
use crate::model::{Model, Row};
use crate::rules::{covers, keeps_rule_1, leads_out};
use crate::settle::{settle, Settled};
use crate::sheet::Entry;
use crate::walk::{walk, Ended};

/// The bytes of a sheet in hexadecimal, with comments from `#` to the end of the line.
fn bytes(hex: &str) -> Vec<u8> {
    let digits: String = hex.lines().map(|line| line.split('#').next().unwrap_or("")).collect();
    let digits: Vec<char> = digits.chars().filter(|c| !c.is_whitespace()).collect();
    let byte = |pair: &[char]| u8::from_str_radix(&pair.iter().collect::<String>(), 16).unwrap();
    digits.chunks(2).map(byte).collect()
}

/// What is printed of a sheet, its lines parted by a stroke.
fn printed(sheet: &[u8]) -> String {
    let mut out = Vec::new();
    carry_out(sheet, &mut out).unwrap();
    String::from_utf8(out).unwrap().trim_end().replace('\n', " | ")
}

/// Two variables of size 3, LANE and DOCK; `setback` is what move 1 makes of DOCK, if anything.
fn lane(setback: &str) -> String {
    format!(
        "56 03 4c414e4520202020  56 03 444f434b20202020
         41 6c616e652d757031  50 00 00  45 00 01
         41 6c616e652d757032  50 00 01  45 00 02  {setback}
         41 646f636b2d757031  50 01 00  45 01 01
         41 646f636b2d757032  50 01 01  45 01 02  45 00 00
         53 00 00  53 01 00   47 00 02  47 01 02  5a"
    )
}

#[test]
fn the_lane_example() {
    let sheet = lane("45 01 00")
        + "44 00 ff ff ff  52 00 00 4e  52 00 01 4e  4f  52 00 02 4e  4f
           52 00 00 4e  52 00 01 4e  52 00 02 4e  52 01 00 4e  52 01 01 4e  52 01 02 4e  54
           52 00 02  52 01 01  4a  57";
    assert_eq!(
        printed(&bytes(&sheet)),
        "model 2 4 | refused 13 1 1 | refused 12 0 - | settle 4 1 | judge dead | \
         write 52 00 00 4e 52 00 01 4e 52 01 00 4e 52 01 01 4e 4f | end"
    );
}

#[test]
fn the_probe_example() {
    let sheet = lane("45 01 00")
        + "44 00 ff ff ff  52 00 00 52 01 00 51  52 01 00 4a  52 00 02 52 01 01 51
           52 00 02 52 01 02 51  57";
    assert_eq!(
        printed(&bytes(&sheet)),
        "model 2 4 | probe dead 8 4 0 | judge dead | probe dead 0 0 0 | probe plan 1 0 | \
         write 52 00 00 4e 52 00 01 4e 52 01 00 4e 52 01 01 4e 4f | end"
    );
}

#[test]
fn the_free_example() {
    let sheet = lane("")
        + "44 01 ff ff ff  52 00 00 52 01 00 4a
           52 00 00 4e  52 00 01 4e  52 00 02 4e  52 01 00 4e  52 01 01 4e  52 01 02 4e  54
           52 00 00 52 01 00 51";
    assert_eq!(printed(&bytes(&sheet)), "model 2 4 | judge silent | settle 0 5 | probe plan 8 4 2 3 0 1 | end");
}

#[test]
fn the_split_example() {
    let rows = "52 00 00 52 02 00 4e  52 00 01 52 01 00 52 02 00 4e  52 00 01 52 01 01 52 02 00 4e";
    let sheet = format!(
        "56 02 5720202020202020  56 02 5820202020202020  56 02 5920202020202020
         41 72616973652d7720  50 00 00 45 00 01  53 00 00 53 01 00 53 02 00  47 02 01  5a  44 00 ff ff ff
         {rows} 4f  {rows} 54  52 00 00 52 02 00 4a  52 00 01 52 01 00 52 02 00 4a  57"
    );
    assert_eq!(
        printed(&bytes(&sheet)),
        "model 3 1 | refused 13 0 0 | settle 2 2 | judge silent | judge dead | \
         write 52 00 01 52 01 00 52 02 00 4e 52 00 01 52 01 01 52 02 00 4e 4f | end"
    );
}

#[test]
fn the_key_example() {
    let sheet = "56 02 4741544520202020  56 02 4b45592020202020
                 41 6f70656e2d697420  50 01 01 45 00 01  53 00 00 53 01 00  47 00 01  5a  44 00 ff ff ff
                 52 00 00 4e 4f  52 00 00 52 01 00 4e 4f  52 00 00 52 01 00 4a  57";
    assert_eq!(
        printed(&bytes(sheet)),
        "model 2 1 | refused 13 0 0 | offer 1 | judge dead | write 52 00 00 52 01 00 4e 4f | end"
    );
}

#[test]
fn the_late_variable_example() {
    let sheet = "56 02 4c414e4520202020  41 6c616e652d757031  56 02 444f434b20202020";
    assert_eq!(printed(&bytes(sheet)), "stop 3 19");
}

#[test]
fn the_ends_of_sheets() {
    assert_eq!(printed(&[]), "stop 1 0");
    assert_eq!(printed(b"Z"), "model 0 0 | stop 1 1");
    assert_eq!(printed(b"ZD\x00\xff\xff\xff"), "model 0 0 | end");
    assert_eq!(printed(b"ZD\x03\xff\xff\xff"), "model 0 0 | stop 10 1");
    assert_eq!(printed(b"ZD\x02\xff\xff\xff"), "model 0 0 | stop 11 1");
    assert_eq!(printed(b"ZD\x00\xff\xff"), "model 0 0 | stop 1 5");
    assert_eq!(
        printed(b"ZD\x00\xff\xff\xffTOQJW"),
        "model 0 0 | settle 0 1 | offer 0 | probe plan 1 0 | judge silent | write 4f | end"
    );
    assert_eq!(printed(&[b'Z'; 65_537]), "stop 4 65536");
    assert_eq!(printed(b"V\x02"), "stop 1 2");
    assert_eq!(printed(b"P"), "stop 1 1");
    assert_eq!(printed(b"P\x00\x00"), "stop 3 0");
    assert_eq!(printed(b"A        x"), "stop 2 9");
}

/// A generator of numbers for the tests below.
struct Numbers(u64);

impl Numbers {
    /// A number below a bound.
    fn below(&mut self, bound: usize) -> usize {
        self.0 ^= self.0 << 13;
        self.0 ^= self.0 >> 7;
        self.0 ^= self.0 << 17;
        (self.0 >> 33) as usize % bound
    }

    /// A row of a model, each variable given in so many of four cases.
    fn row(&mut self, model: &Model, given: usize) -> Row {
        (0..model.variables()).fold(Row::open(), |row, variable| {
            if self.below(4) < given {
                row.with(variable, self.below(usize::from(model.size(variable).unwrap())) as u8)
            } else {
                row
            }
        })
    }

    /// A small model whose goal gives some variable.
    fn model(&mut self) -> Model {
        let mut model = Model::default();
        for _ in 0..2 + self.below(3) {
            model.name_variable(2 + self.below(2) as u8).unwrap();
        }
        for _ in 0..1 + self.below(6) {
            model.begin_move().unwrap();
            for (variable, value) in self.row(&model, 2).entries() {
                model.condition(Entry { variable: variable as u8, value }).unwrap();
            }
            for (variable, value) in self.row(&model, 2).entries() {
                model.effect(Entry { variable: variable as u8, value }).unwrap();
            }
        }
        let first = Entry { variable: 0, value: self.below(2) as u8 };
        model.goal_entry(first).unwrap();
        for (variable, value) in self.row(&model, 1).entries().filter(|&(variable, _)| variable > 0) {
            model.goal_entry(Entry { variable: variable as u8, value }).unwrap();
        }
        model
    }

    /// A detector over a small model.
    fn detector(&mut self) -> Detector {
        let model = self.model();
        match self.below(4) {
            0 => Detector::make(model, 0, [255; 3]),
            1 => Detector::make(model, 1, [255; 3]),
            2 => Detector::make(model, 2, [0, 255, 255]),
            _ => Detector::make(model, 2, [0, 1, 255]),
        }
        .unwrap()
    }
}

/// Learning as it is told, with nothing remembered.
fn learned_straight(detector: &Detector, held: &[Row], states: &[Row]) -> Learned {
    let goal = detector.model().goal();
    let with_entry = |part: &Row, state: &Row, variable: usize| part.with(variable, state.entry(variable).unwrap());
    let mut parts: Vec<Row> = states
        .iter()
        .map(|state| with_entry(&Row::open(), state, state.lowest_disagreement(goal).unwrap()))
        .collect();
    let mut entries = 0;
    while let Some(place) = parts.iter().position(|part| leads_out(detector, held, &parts, part).is_some()) {
        let variable = states[place].lowest_missing_in(&parts[place]).unwrap();
        parts[place] = with_entry(&parts[place], &states[place], variable);
        entries += 1;
    }
    Learned { parts, entries }
}

/// Settling as it is told, with nothing remembered.
fn settled_straight(detector: &Detector, held: &[Row], candidates: &[Row]) -> Settled {
    let mut unmarked: Vec<Row> = candidates.iter().copied().filter(|row| keeps_rule_1(detector, row)).collect();
    let mut rounds = 0;
    loop {
        rounds += 1;
        let left: Vec<Row> =
            unmarked.iter().copied().filter(|row| leads_out(detector, held, &unmarked, row).is_none()).collect();
        if left.len() == unmarked.len() {
            return Settled { unmarked, rounds };
        }
        unmarked = left;
    }
}

#[test]
fn what_is_learned_is_learned_the_straight_way() {
    let mut numbers = Numbers(0x5eed);
    let mut regained = 0;
    for _ in 0..4000 {
        let mut book = Book::open(numbers.detector());
        for _ in 0..3 {
            let state = numbers.row(book.model(), 4);
            if book.judge(&state) {
                continue;
            }
            let (listed, ended) = walk(book.model(), |row| book.judge(row), &state);
            if ended == Ended::NoPlan {
                let states: Vec<Row> = listed.iter().map(|walked| walked.state).collect();
                let learned = learn(book.detector(), book.rows(), &states);
                assert_eq!(learned, learned_straight(book.detector(), book.rows(), &states));
                regained += learned.entries;
                book.offer(&learned.parts).unwrap();
            }
        }
    }
    assert!(regained > 1000);
}

#[test]
fn what_is_settled_is_settled_the_straight_way() {
    let mut numbers = Numbers(0x5e771e);
    let mut rounds = 0;
    for _ in 0..4000 {
        let mut book = Book::open(numbers.detector());
        for _ in 0..3 {
            let candidates: Vec<Row> = (0..numbers.below(20)).map(|_| numbers.row(book.model(), 2)).collect();
            let settled = settle(book.detector(), book.rows(), &candidates);
            assert_eq!(settled, settled_straight(book.detector(), book.rows(), &candidates));
            rounds += settled.rounds - 1;
            book.offer(&settled.unmarked).unwrap();
        }
    }
    assert!(rounds > 1000);
}

/// The cuts that are reached from a row's own, listed in order of arrival.
fn reached_cuts(model: &Model, variables: &Row, row: &Row) -> Vec<Row> {
    let mut reached = vec![row.cut(variables)];
    let mut taken = 0;
    while taken < reached.len() {
        for step in model.moves() {
            let mut cut_move = *step;
            cut_move.conditions = step.conditions.cut(variables);
            cut_move.effects = step.effects.cut(variables);
            if let Some(onward) = cut_move.progression(&reached[taken]) {
                if !reached.contains(&onward) {
                    reached.push(onward);
                }
            }
        }
        taken += 1;
    }
    reached
}

#[test]
fn the_pattern_looks_back_as_it_would_forward() {
    let mut numbers = Numbers(0xc0ffee);
    let mut dead = 0;
    for _ in 0..4000 {
        let model = numbers.model();
        let (operands, variables) = match numbers.below(3) {
            0 => ([0, 255, 255], Row::open().with(0, 0)),
            1 => ([1, 255, 255], Row::open().with(1, 0)),
            _ => ([0, 1, 255], Row::open().with(0, 0).with(1, 0)),
        };
        let detector = Detector::make(model.clone(), 2, operands).unwrap();
        for _ in 0..8 {
            let row = numbers.row(&model, 3);
            let gives_all = variables.entries().all(|(variable, _)| row.entry(variable).is_some());
            let goal = model.goal().cut(&variables);
            let expected =
                gives_all && !covers_any(&reached_cuts(&model, &variables, &row), &goal);
            assert_eq!(detector.calls_dead(&row), expected);
            dead += usize::from(expected);
        }
    }
    assert!(dead > 1000);
}

/// Whether a row is contained in some row of a list.
fn covers_any(list: &[Row], row: &Row) -> bool {
    list.iter().any(|held| covers(&[*row], held))
}

#[test]
fn what_is_called_dead_has_no_plan() {
    let mut numbers = Numbers(0xdead);
    for _ in 0..2000 {
        let mut book = Book::open(numbers.detector());
        for _ in 0..4 {
            let state = numbers.row(book.model(), 4);
            let (_, without_a_book) = walk(book.model(), |_| false, &state);
            let dead = match book.probe(&state) {
                Ok(crate::book::Probed::Dead { .. }) => true,
                Ok(crate::book::Probed::Plan { moves, .. }) => {
                    assert_eq!(without_a_book, Ended::Plan(moves));
                    false
                }
                Err(refused) => panic!("{refused:?}"),
            };
            assert_eq!(dead, without_a_book == Ended::NoPlan);
        }
    }
}
