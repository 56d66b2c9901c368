//! The files (docs/files.md) and slips (docs/refusals.md).

use crate::plan::{Cell, End, Event, Plan};
use crate::sets::Gap;
use std::collections::{BTreeMap, BTreeSet};

/// A refusal by its number, and a place.
#[derive(Clone, Copy, Debug, PartialEq, Eq)]
pub struct Slip {
    pub number: u8,
    pub place: u64,
}

impl Slip {
    pub fn new(number: u8, place: u64) -> Slip {
        Slip { number, place }
    }

    pub fn layer(&self) -> u8 {
        match self.number {
            1..=5 => 1,
            6..=10 => 2,
            11 | 16 => 3,
            _ => 4,
        }
    }

    pub fn line(&self) -> String {
        format!("refused {} layer {} place {}\n", self.number, self.layer(), self.place)
    }
}

pub const LARGEST_FILE: usize = 60_000;

/// One number as it stood in a file, and where its first byte was.
#[derive(Clone, Copy)]
struct Field {
    value: i64,
    place: u64,
}

impl Field {
    /// The value, if it passes the test; else the refusal at this field.
    fn must(self, number: u8, test: impl Fn(i64) -> bool) -> Result<i64, Slip> {
        if test(self.value) {
            Ok(self.value)
        } else {
            Err(Slip::new(number, self.place))
        }
    }
}

/// What is left of a file, and how much was taken.
struct Rest<'a> {
    left: &'a [u8],
    taken: usize,
}

impl<'a> Rest<'a> {
    fn open(file: &'a [u8]) -> Result<Rest<'a>, Slip> {
        if file.len() > LARGEST_FILE {
            return Err(Slip::new(5, LARGEST_FILE as u64));
        }
        Ok(Rest { left: file, taken: 0 })
    }

    fn take(&mut self, width: usize) -> Result<Field, Slip> {
        let place = self.taken as u64;
        if self.left.len() < width {
            return Err(Slip::new(1, place));
        }
        let (field, left) = self.left.split_at(width);
        self.left = left;
        self.taken += width;
        Ok(Field { value: field.iter().fold(0, |sum, byte| sum * 256 + i64::from(*byte)), place })
    }

    fn close(self) -> Result<(), Slip> {
        if self.left.is_empty() {
            Ok(())
        } else {
            Err(Slip::new(5, self.taken as u64))
        }
    }
}

fn stands(map: i64, bit: u32) -> bool {
    (map >> bit) % 2 == 1
}

pub fn parse_model(file: &[u8]) -> Result<Plan, Slip> {
    let mut rest = Rest::open(file)?;
    let count = rest.take(2)?.must(2, |n| (1..=200).contains(&n))?;
    let first = rest.take(2)?.value as usize;
    let mut cells = Vec::new();
    for _ in 0..count {
        cells.push(parse_cell(&mut rest)?);
    }
    rest.close()?;
    Ok(Plan { first, cells })
}

fn parse_cell(rest: &mut Rest) -> Result<Cell, Slip> {
    let map = rest.take(2)?.must(3, |map| [0, 1, 3, 7, 15].contains(&(map % 16)) && map < 4096)?;
    let mut events = Vec::new();
    for bit in 0..4 {
        if stands(map, bit) {
            let letter = rest.take(1)?.must(4, |c| b"BDRWS".iter().any(|known| i64::from(*known) == c))? as u8;
            let lower = rest.take(2)?.value as usize;
            let upper = rest.take(2)?.value as usize;
            events.push(Event { letter, lower, upper });
        }
    }
    let mut exit = BTreeSet::new();
    if stands(map, 5) {
        let set = rest.take(1)?.must(4, |set| (1..=63).contains(&set))?;
        exit = (1..=6).filter(|clock| stands(set, *clock as u32 - 1)).collect();
    }
    let mut low = BTreeMap::new();
    let mut high = BTreeMap::new();
    for clock in 1..=6usize {
        if stands(map, 5 + clock as u32) {
            let kind = rest.take(1)?.must(3, |kind| {
                let (l, lo, h, ho) = (stands(kind, 0), stands(kind, 1), stands(kind, 2), stands(kind, 3));
                kind < 16 && (l || h) && (!lo || l) && (!ho || h)
            })?;
            if stands(kind, 0) {
                let units = rest.take(2)?.must(4, |n| n <= 9_999)?;
                low.insert(clock, End { units, open: stands(kind, 1) });
            }
            if stands(kind, 2) {
                let units = rest.take(2)?.must(4, |n| n <= 9_999)?;
                high.insert(clock, End { units, open: stands(kind, 3) });
            }
        }
    }
    Ok(Cell { events, last: stands(map, 4), exit, low, high })
}

/// A step as a trail file tells it.
#[derive(Clone, Copy, Debug, PartialEq, Eq)]
pub enum Told {
    Wait(i64),
    Start(usize, usize),
    Finish(usize),
}

pub fn parse_trail(file: &[u8]) -> Result<(i64, Vec<Told>), Slip> {
    let mut rest = Rest::open(file)?;
    let scale = rest.take(2)?.value;
    let mut steps = Vec::new();
    while !rest.left.is_empty() {
        let letter = rest.take(1)?.must(4, |c| c == 0x77 || c == 0x73 || c == 0x66)?;
        steps.push(match letter as u8 {
            b'w' => Told::Wait(rest.take(4)?.value),
            b's' => {
                let cell = rest.take(2)?.value as usize;
                Told::Start(cell, rest.take(1)?.value as usize)
            }
            _ => Told::Finish(rest.take(1)?.value as usize),
        });
    }
    Ok((scale, steps))
}

/// An entry of a cover's file: a cell and gaps, none of them tested.
#[derive(Clone, Debug, PartialEq, Eq)]
pub struct Written {
    pub cell: usize,
    pub gaps: Vec<Gap>,
}

pub fn parse_cover(file: &[u8]) -> Result<Vec<Written>, Slip> {
    let mut rest = Rest::open(file)?;
    let count = rest.take(2)?.must(2, |n| n <= 256)?;
    let mut entries = Vec::new();
    for _ in 0..count {
        let cell = rest.take(2)?.value as usize;
        let gaps = rest.take(1)?.value;
        let mut entry = Written { cell, gaps: Vec::new() };
        for _ in 0..gaps {
            let first = rest.take(1)?.value as usize;
            let second = rest.take(1)?.value as usize;
            let word = rest.take(2)?.value;
            let signed = if word >= 32_768 { word - 65_536 } else { word };
            entry.gaps.push(Gap { first, second, units: signed.div_euclid(2), at_most: signed.rem_euclid(2) == 1 });
        }
        entries.push(entry);
    }
    rest.close()?;
    Ok(entries)
}

// The same formats, written. Only the generator and the tests write files.

fn two(bytes: &mut Vec<u8>, n: usize) {
    bytes.extend_from_slice(&(n as u16).to_be_bytes());
}

pub fn write_model(plan: &Plan) -> Vec<u8> {
    let mut out = Vec::new();
    two(&mut out, plan.cells.len());
    two(&mut out, plan.first);
    for cell in &plan.cells {
        let mut map = (1usize << cell.events.len()) - 1;
        map += if cell.last { 16 } else { 0 };
        map += if cell.exit.is_empty() { 0 } else { 32 };
        let clocks: BTreeSet<usize> = cell.low.keys().chain(cell.high.keys()).copied().collect();
        map += clocks.iter().map(|clock| 1 << (5 + clock)).sum::<usize>();
        two(&mut out, map);
        for event in &cell.events {
            out.push(event.letter);
            two(&mut out, event.lower);
            two(&mut out, event.upper);
        }
        if !cell.exit.is_empty() {
            out.push(cell.exit.iter().map(|clock| 1u8 << (clock - 1)).sum());
        }
        for clock in clocks {
            let (low, high) = (cell.low.get(&clock), cell.high.get(&clock));
            let bits = |end: Option<&End>| end.map_or(0, |end| if end.open { 3 } else { 1 });
            out.push(bits(low) + 4 * bits(high));
            for end in low.into_iter().chain(high) {
                two(&mut out, end.units as usize);
            }
        }
    }
    out
}

pub fn write_trail(scale: usize, steps: &[Told]) -> Vec<u8> {
    let mut out = Vec::new();
    two(&mut out, scale);
    for step in steps {
        match *step {
            Told::Wait(ticks) => {
                out.push(b'w');
                out.extend_from_slice(&(ticks as u32).to_be_bytes());
            }
            Told::Start(cell, event) => {
                out.push(b's');
                two(&mut out, cell);
                out.push(event as u8);
            }
            Told::Finish(event) => {
                out.push(b'f');
                out.push(event as u8);
            }
        }
    }
    out
}

/// Writes as many of an entry's gaps as its count allows (255).
pub fn write_cover(entries: &[Written]) -> Vec<u8> {
    let mut out = Vec::new();
    two(&mut out, entries.len());
    for entry in entries {
        two(&mut out, entry.cell);
        let gaps = &entry.gaps[..entry.gaps.len().min(255)];
        out.push(gaps.len() as u8);
        for gap in gaps {
            out.push(gap.first as u8);
            out.push(gap.second as u8);
            let word = 2 * gap.units + i64::from(gap.at_most);
            out.extend_from_slice(&(word as i16).to_be_bytes());
        }
    }
    out
}
