//! The book and its orders.

use crate::detectors::Detector;
use crate::learning::learn;
use crate::model::{Model, Row};
use crate::refusal::{Refusal, Refused};
use crate::rules::{covers, keeps_rule_1, leads_out};
use crate::settle::settle;
use crate::walk::{walk, Ended};

/// A book has at most so many rows.
pub const BOOK_ROWS: usize = 256;

/// Rows that keep both rules over a detector.
pub struct Book {
    detector: Detector,
    rows: Vec<Row>,
}

/// What a probe tells.
#[derive(Clone, PartialEq, Eq, Debug)]
pub enum Probed {
    Dead { states: usize, rows: usize, entries: usize },
    Plan { states: usize, moves: Vec<usize> },
}

impl Book {
    /// A book without rows.
    pub fn open(detector: Detector) -> Book {
        Book { detector, rows: Vec::new() }
    }

    /// The model of the detector.
    pub fn model(&self) -> &Model {
        self.detector.model()
    }

    /// The detector over which the book is.
    #[cfg(test)]
    pub fn detector(&self) -> &Detector {
        &self.detector
    }

    /// The rows of the book, in their order.
    #[cfg(test)]
    pub fn rows(&self) -> &[Row] {
        &self.rows
    }

    /// Whether the book calls a row of the model dead.
    pub fn judge(&self, row: &Row) -> bool {
        covers(&self.rows, row) || self.detector.calls_dead(row)
    }

    /// Offers a list. Tells how many rows were added.
    pub fn offer(&mut self, list: &[Row]) -> Result<usize, Refused> {
        if let Some(place) = list.iter().position(|row| !keeps_rule_1(&self.detector, row)) {
            return Err(Refused { refusal: Refusal::MeetsGoal, row: Some(place), step: None });
        }
        for (place, row) in list.iter().enumerate() {
            if let Some(step) = leads_out(&self.detector, &self.rows, list, row) {
                return Err(Refused { refusal: Refusal::LeadsOut, row: Some(place), step: Some(step) });
            }
        }
        Ok(self.add(list)?)
    }

    /// Settles candidates. Tells how many rows were added, and the rounds.
    pub fn settle(&mut self, candidates: &[Row]) -> Result<(usize, usize), Refused> {
        let settled = settle(&self.detector, &self.rows, candidates);
        let added = self.add(&settled.unmarked)?;
        Ok((added, settled.rounds))
    }

    /// Probes a row.
    pub fn probe(&mut self, row: &Row) -> Result<Probed, Refused> {
        if !self.model().is_state(row) {
            return Err(Refusal::OpenEntry.into());
        }
        if self.judge(row) {
            return Ok(Probed::Dead { states: 0, rows: 0, entries: 0 });
        }
        let (listed, ended) = walk(self.model(), |onward| self.judge(onward), row);
        let states = listed.len();
        match ended {
            Ended::Plan(moves) => Ok(Probed::Plan { states, moves }),
            Ended::WantsPlace => Err(Refusal::WorkListFull.into()),
            Ended::NoPlan => {
                let listed: Vec<Row> = listed.iter().map(|walked| walked.state).collect();
                let learned = learn(&self.detector, &self.rows, &listed);
                let rows = self.add(&learned.parts)?;
                Ok(Probed::Dead { states, rows, entries: learned.entries })
            }
        }
    }

    /// The commands that enter each row and list it, and the one that offers the list.
    pub fn written(&self) -> Vec<u8> {
        let mut bytes = Vec::new();
        for row in &self.rows {
            for (variable, value) in row.entries() {
                bytes.extend([b'R', variable as u8, value]);
            }
            bytes.push(b'N');
        }
        bytes.push(b'O');
        bytes
    }

    /// Adds the rows of a list that are not yet held, in list order, each once; all or, with 14, none.
    fn add(&mut self, list: &[Row]) -> Result<usize, Refusal> {
        let mut rows = self.rows.clone();
        for row in list {
            if !rows.contains(row) {
                rows.push(*row);
            }
        }
        if rows.len() > BOOK_ROWS {
            return Err(Refusal::BookFull);
        }
        let added = rows.len() - self.rows.len();
        self.rows = rows;
        Ok(added)
    }
}
