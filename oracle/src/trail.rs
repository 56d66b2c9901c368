//! Trails (docs/trail.md): one run, as the list of everywhere it has been.

use crate::bytes::{Slip, Told};
use crate::plan::Plan;

#[derive(Clone, Copy, Debug, PartialEq, Eq)]
pub struct Standing {
    pub cell: usize,
    pub counts: [i64; 6],
    pub elapsed: i64,
}

#[derive(Clone, Debug)]
pub struct Trail {
    pub scale: i64,
    pub been: Vec<Standing>,
}

const LARGEST_COUNT: i64 = 1_000_000_000;

impl Trail {
    pub fn set_out(plan: &Plan, scale: i64) -> Result<Trail, Slip> {
        if !(1..=1_000).contains(&scale) {
            return Err(Slip::new(18, 0));
        }
        if !plan.cells[plan.first].admits(&[0; 6], scale) {
            return Err(Slip::new(22, 0));
        }
        Ok(Trail { scale, been: vec![Standing { cell: plan.first, counts: [0; 6], elapsed: 0 }] })
    }

    pub fn now(&self) -> Standing {
        *self.been.last().expect("a trail stands somewhere")
    }

    /// One more step, if it can be taken. The refusals are asked in the order of their numbers.
    pub fn step(&mut self, plan: &Plan, told: Told) -> Result<(), Slip> {
        let now = self.now();
        let refuse = |number| Err(Slip::new(number, now.cell as u64));
        let event = |cell: usize, k: usize| plan.cells.get(cell).and_then(|cell| cell.events.get(k.checked_sub(1)?));
        let next = match told {
            Told::Wait(ticks) => {
                let later = now.counts.map(|count| count + ticks);
                if later.iter().any(|count| *count > LARGEST_COUNT) || now.elapsed + ticks > LARGEST_COUNT {
                    return refuse(21);
                }
                Standing { cell: now.cell, counts: later, elapsed: now.elapsed + ticks }
            }
            Told::Start(cell, k) => match event(cell, k) {
                None => return refuse(13),
                Some(begun) if begun.lower != now.cell => return refuse(20),
                Some(_) => self.leave(plan, cell),
            },
            Told::Finish(k) => match event(now.cell, k) {
                None => return refuse(20),
                Some(done) => self.leave(plan, done.upper),
            },
        };
        if !plan.cells[next.cell].admits(&next.counts, self.scale) {
            return refuse(22);
        }
        self.been.push(next);
        Ok(())
    }

    fn leave(&self, plan: &Plan, cell: usize) -> Standing {
        let mut next = Standing { cell, ..self.now() };
        for clock in &plan.cells[self.now().cell].exit {
            next.counts[clock - 1] = 0;
        }
        next
    }
}
