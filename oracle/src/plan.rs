//! Models (docs/model.md): cells, rules, steps out of a cell.

use crate::bytes::Slip;
use std::collections::{BTreeMap, BTreeSet};

#[derive(Clone, Copy, Debug, PartialEq, Eq)]
pub struct End {
    pub units: i64,
    pub open: bool,
}

#[derive(Clone, Copy, Debug, PartialEq, Eq)]
pub struct Event {
    pub letter: u8,
    pub lower: usize,
    pub upper: usize,
}

impl Event {
    pub fn face(&self, side: Side) -> usize {
        match side {
            Side::Lower => self.lower,
            Side::Upper => self.upper,
        }
    }
}

#[derive(Clone, Copy, Debug, PartialEq, Eq)]
pub enum Side {
    Lower,
    Upper,
}

pub const SIDES: [Side; 2] = [Side::Lower, Side::Upper];

#[derive(Clone, Debug, Default, PartialEq, Eq)]
pub struct Cell {
    pub events: Vec<Event>,
    /// The cell is final.
    pub last: bool,
    pub exit: BTreeSet<usize>,
    pub low: BTreeMap<usize, End>,
    pub high: BTreeMap<usize, End>,
}

impl Cell {
    pub fn letters(&self) -> Vec<u8> {
        self.events.iter().map(|event| event.letter).collect()
    }

    /// Whether six counts (clock 1 first) meet the invariant at a scale.
    pub fn admits(&self, counts: &[i64; 6], scale: i64) -> bool {
        let above = |end: &End, count: i64| if end.open { count > end.units * scale } else { count >= end.units * scale };
        let under = |end: &End, count: i64| if end.open { count < end.units * scale } else { count <= end.units * scale };
        self.low.iter().all(|(clock, end)| above(end, counts[clock - 1]))
            && self.high.iter().all(|(clock, end)| under(end, counts[clock - 1]))
    }
}

#[derive(Clone, Debug, Default, PartialEq, Eq)]
pub struct Plan {
    pub first: usize,
    pub cells: Vec<Cell>,
}

/// A step out of a cell; events are counted from 1.
#[derive(Clone, Copy, Debug, PartialEq, Eq)]
pub enum Step {
    Wait,
    Finish(usize),
    Start(usize, usize),
}

impl Plan {
    /// Wait, the finishes by event, the starts by cell and event.
    pub fn steps_out(&self, from: usize) -> Vec<Step> {
        let finishes = (1..=self.cells[from].events.len()).map(Step::Finish);
        let starts = self.cells.iter().enumerate().flat_map(|(number, cell)| {
            let begun = cell.events.iter().enumerate().filter(|(_, event)| event.lower == from);
            begun.map(move |(index, _)| Step::Start(number, index + 1)).collect::<Vec<_>>()
        });
        std::iter::once(Step::Wait).chain(finishes).chain(starts).collect()
    }

    /// The rules 6 to 10, each over all cells before the next.
    pub fn accept(self) -> Result<Plan, Slip> {
        if self.first >= self.cells.len() {
            return Err(Slip::new(6, self.first as u64));
        }
        let rules: [(u8, fn(&Plan, usize) -> bool); 5] = [
            (6, Plan::faces_are_cells),
            (7, Plan::faces_have_the_letters),
            (8, Plan::faces_of_faces_agree),
            (9, Plan::is_idle_if_first_or_last),
            (10, Plan::has_few_steps),
        ];
        for (number, rule) in rules {
            if let Some(cell) = (0..self.cells.len()).find(|cell| !rule(&self, *cell)) {
                return Err(Slip::new(number, cell as u64));
            }
        }
        Ok(self)
    }

    fn faces_are_cells(&self, cell: usize) -> bool {
        self.cells[cell].events.iter().all(|event| event.lower < self.cells.len() && event.upper < self.cells.len())
    }

    fn faces_have_the_letters(&self, cell: usize) -> bool {
        let events = &self.cells[cell].events;
        (0..events.len()).all(|k| {
            let mut wanted = self.cells[cell].letters();
            wanted.remove(k);
            SIDES.iter().all(|side| self.cells[events[k].face(*side)].letters() == wanted)
        })
    }

    /// Face k of face m is face m - 1 of face k, for k below m (k and m from 1), whichever side each is on.
    fn faces_of_faces_agree(&self, cell: usize) -> bool {
        let face = |of: usize, k: usize, side: Side| self.cells[of].events[k - 1].face(side);
        let count = self.cells[cell].events.len();
        (1..=count).all(|m| {
            (1..m).all(|k| {
                SIDES.iter().all(|side_k| {
                    SIDES.iter().all(|side_m| face(face(cell, m, *side_m), k, *side_k) == face(face(cell, k, *side_k), m - 1, *side_m))
                })
            })
        })
    }

    fn is_idle_if_first_or_last(&self, cell: usize) -> bool {
        (cell != self.first && !self.cells[cell].last) || self.cells[cell].events.is_empty()
    }

    fn has_few_steps(&self, cell: usize) -> bool {
        self.steps_out(cell).len() <= 16
    }
}
