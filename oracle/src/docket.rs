//! The docket (docs/docket.md), as far as a judge needs it: entries, images, duties.

use crate::bytes::{Slip, Written};
use crate::plan::{Cell, Plan, Step};
use crate::sets::{Gap, Set};

pub struct Docket<'a> {
    pub plan: &'a Plan,
    pub entries: Vec<(usize, Set)>,
}

/// One duty: where its image lies, and the image, if it is not refused.
pub struct Duty {
    pub target: usize,
    pub image: Result<Set, Slip>,
}

/// The gaps of a cell's invariant, by clock, low end first.
pub fn invariant(cell: &Cell) -> Vec<Gap> {
    let mut gaps = Vec::new();
    for clock in 1..=6 {
        if let Some(end) = cell.low.get(&clock) {
            gaps.push(Gap { first: 0, second: clock, units: -end.units, at_most: !end.open });
        }
        if let Some(end) = cell.high.get(&clock) {
            gaps.push(Gap { first: clock, second: 0, units: end.units, at_most: !end.open });
        }
    }
    gaps
}

pub fn cut_by(set: Set, gaps: &[Gap]) -> Result<Set, Slip> {
    gaps.iter().try_fold(set, |set, gap| set.gap(gap))
}

impl<'a> Docket<'a> {
    pub fn new(plan: &'a Plan) -> Docket<'a> {
        Docket { plan, entries: Vec::new() }
    }

    pub fn lodge(&mut self, cell: usize, set: Set) -> Result<(), Slip> {
        let number = self.entries.len() as u64;
        if self.entries.len() >= 256 {
            return Err(Slip::new(12, number));
        }
        if cell >= self.plan.cells.len() {
            return Err(Slip::new(13, number));
        }
        if set.is_empty() {
            return Err(Slip::new(14, number));
        }
        self.entries.push((cell, set));
        Ok(())
    }

    /// The set of each written entry is made, and lodged at once.
    pub fn lodge_written(&mut self, written: &[Written]) -> Result<(), Slip> {
        for entry in written {
            let set = cut_by(Set::all(), &entry.gaps)?;
            self.lodge(entry.cell, set)?;
        }
        Ok(())
    }

    /// Where a step leads from what is inside its cell's invariant.
    fn duty(&self, cell: usize, inside: &Result<Set, Slip>, step: Step) -> Duty {
        let cells = &self.plan.cells;
        let target = match step {
            Step::Wait => cell,
            Step::Finish(k) => cells[cell].events[k - 1].upper,
            Step::Start(into, _) => into,
        };
        let image = inside.clone().and_then(|set| match step {
            Step::Wait => set.delay(),
            _ => set.reset(&cells[cell].exit),
        });
        Duty { target, image: image.and_then(|set| cut_by(set, &invariant(&cells[target]))) }
    }

    pub fn duties(&self) -> Vec<Duty> {
        let first = self.plan.first;
        let opening = Duty { target: first, image: cut_by(Set::zero(), &invariant(&self.plan.cells[first])) };
        let mut duties = vec![opening];
        for (cell, set) in &self.entries {
            let inside = cut_by(set.clone(), &invariant(&self.plan.cells[*cell]));
            duties.extend(self.plan.steps_out(*cell).into_iter().map(|step| self.duty(*cell, &inside, step)));
        }
        duties
    }

    pub fn settled(&self, duty: &Duty) -> bool {
        match &duty.image {
            Err(_) => false,
            Ok(image) if image.is_empty() => true,
            Ok(image) => self.entries.iter().any(|(cell, set)| *cell == duty.target && image.within(set)),
        }
    }

    pub fn touches_the_end(&self) -> bool {
        self.entries.iter().any(|(cell, _)| self.plan.cells[*cell].last)
    }
}
