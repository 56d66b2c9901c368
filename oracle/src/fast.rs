//! A judge made for speed in plain Rust: a bound is one number (twice the constant, plus one for "at most", the greatest for none), a zone is a flat
//! array of 49 of them, and a gap is closed in one pass over the array; a model is a few flat tables. It prints the same report, and shares nothing
//! with the oracle but the slips and the lines. `bench` times it; `compare` asks it too.

use crate::bytes::Slip;
use crate::report::{tenths, Files};
use crate::sets::Gap;

pub const NONE: i32 = i32::MAX;
const LE_ZERO: i32 = 1;
const LARGEST: i32 = 4_000_000;

#[inline(always)]
pub fn sum(a: i32, b: i32) -> i32 {
    if a == NONE || b == NONE {
        NONE
    } else {
        a + b - ((a | b) & 1)
    }
}

#[derive(Clone, Copy, Debug, PartialEq, Eq)]
pub struct Zone {
    pub bounds: [i32; 49],
    pub empty: bool,
}

#[derive(Clone, Copy, Debug)]
pub struct Cut {
    pub first: usize,
    pub second: usize,
    pub bound: i32,
}

impl Zone {
    pub fn all() -> Zone {
        let mut bounds = [NONE; 49];
        for i in 0..7 {
            bounds[i] = LE_ZERO;
            bounds[8 * i] = LE_ZERO;
        }
        Zone { bounds, empty: false }
    }

    pub fn zero() -> Zone {
        Zone { bounds: [LE_ZERO; 49], empty: false }
    }

    fn fits(&self) -> bool {
        self.empty || self.bounds.iter().all(|b| *b == NONE || (-LARGEST..=LARGEST).contains(&(b >> 1)))
    }

    /// One more bound on a closed zone. False: a bound passed the limit.
    pub fn cut(&mut self, cut: Cut) -> bool {
        let Cut { first: i, second: j, bound } = cut;
        if self.empty || self.bounds[7 * i + j] <= bound {
            return true;
        }
        if sum(bound, self.bounds[7 * j + i]) < LE_ZERO {
            self.empty = true;
            return true;
        }
        let mut row = [0i32; 7];
        row.copy_from_slice(&self.bounds[7 * j..7 * j + 7]);
        for k in 0..7 {
            let to = sum(self.bounds[7 * k + i], bound);
            if to == NONE {
                continue;
            }
            for l in 0..7 {
                let way = sum(to, row[l]);
                if way < self.bounds[7 * k + l] {
                    self.bounds[7 * k + l] = way;
                }
            }
        }
        self.fits()
    }

    pub fn cut_by(&mut self, cuts: &[Cut]) -> bool {
        for cut in cuts {
            if !self.cut(*cut) {
                return false;
            }
            if self.empty {
                return true;
            }
        }
        true
    }

    pub fn reset(&mut self, mask: u8) {
        if self.empty || mask == 0 {
            return;
        }
        for r in 1..7 {
            if mask >> (r - 1) & 1 == 1 {
                for k in 0..7 {
                    self.bounds[7 * r + k] = self.bounds[k];
                }
                for k in 0..7 {
                    self.bounds[7 * k + r] = self.bounds[7 * k];
                }
                self.bounds[8 * r] = LE_ZERO;
            }
        }
    }

    pub fn delay(&mut self) {
        for i in 1..7 {
            self.bounds[7 * i] = NONE;
        }
    }

    pub fn within(&self, other: &Zone) -> bool {
        self.empty || (!other.empty && self.bounds.iter().zip(&other.bounds).all(|(a, b)| a <= b))
    }

    /// The closing of any bounds (the generator loosens some and closes again).
    pub fn close(&mut self) {
        for via in 0..7 {
            for i in 0..7 {
                let to = self.bounds[7 * i + via];
                if to == NONE {
                    continue;
                }
                for j in 0..7 {
                    let way = sum(to, self.bounds[7 * via + j]);
                    if way < self.bounds[7 * i + j] {
                        self.bounds[7 * i + j] = way;
                    }
                }
            }
        }
        if (0..7).any(|i| self.bounds[8 * i] < LE_ZERO) {
            self.empty = true;
        }
    }

    /// The bounds as gaps, without those that every reading obeys.
    pub fn gaps(&self) -> Vec<Gap> {
        let mut gaps = Vec::new();
        for i in 0..7 {
            for j in 0..7 {
                let b = self.bounds[7 * i + j];
                if i != j && b != NONE && !(i == 0 && b == LE_ZERO) {
                    gaps.push(Gap { first: i, second: j, units: i64::from(b >> 1), at_most: b & 1 == 1 });
                }
            }
        }
        gaps
    }
}

// ---------------------------------------------------------------- files

const LARGEST_FILE: usize = 60_000;

pub(crate) struct Reader<'a> {
    bytes: &'a [u8],
    at: usize,
}

impl<'a> Reader<'a> {
    pub(crate) fn open(bytes: &'a [u8]) -> Result<Reader<'a>, Slip> {
        if bytes.len() > LARGEST_FILE {
            return Err(Slip::new(5, LARGEST_FILE as u64));
        }
        Ok(Reader { bytes, at: 0 })
    }

    #[inline(always)]
    pub(crate) fn get<const N: usize>(&mut self) -> Result<[u8; N], Slip> {
        match self.bytes.get(self.at..self.at + N) {
            Some(field) => {
                self.at += N;
                Ok(field.try_into().unwrap())
            }
            None => Err(Slip::new(1, self.at as u64)),
        }
    }

    pub(crate) fn one(&mut self) -> Result<u8, Slip> {
        self.get::<1>().map(|field| field[0])
    }

    pub(crate) fn two(&mut self) -> Result<u16, Slip> {
        self.get::<2>().map(u16::from_be_bytes)
    }

    /// A refusal at the field of so many bytes that was just read.
    pub(crate) fn fault(&self, number: u8, width: usize) -> Slip {
        Slip::new(number, (self.at - width) as u64)
    }

    pub(crate) fn close(&self) -> Result<(), Slip> {
        if self.at < self.bytes.len() {
            return Err(Slip::new(5, self.at as u64));
        }
        Ok(())
    }
}

// ---------------------------------------------------------------- model

#[derive(Clone, Copy, Default)]
pub(crate) struct Flat {
    pub(crate) events: usize,
    letters: [u8; 4],
    pub(crate) faces: [[u16; 4]; 2],
    pub(crate) last: bool,
    pub(crate) exit: u8,
    cuts: (usize, usize),
}

pub(crate) struct Model {
    pub(crate) first: usize,
    pub(crate) cells: Vec<Flat>,
    cuts: Vec<Cut>,
    /// Where the finishes and starts out of each cell lead: from, to, into `to`.
    out: Vec<(usize, usize)>,
    to: Vec<u16>,
}

impl Model {
    fn read(bytes: &[u8]) -> Result<Model, Slip> {
        let mut reader = Reader::open(bytes)?;
        let count = reader.two()?;
        if count == 0 || count > 200 {
            return Err(reader.fault(2, 2));
        }
        let first = reader.two()? as usize;
        let mut cells = Vec::with_capacity(count as usize);
        let mut cuts = Vec::with_capacity(12 * count as usize);
        for _ in 0..count {
            let mut cell = Flat::default();
            let map = reader.two()?;
            cell.events = match map & 15 {
                0 => 0,
                1 => 1,
                3 => 2,
                7 => 3,
                15 => 4,
                _ => return Err(reader.fault(3, 2)),
            };
            if map >> 12 != 0 {
                return Err(reader.fault(3, 2));
            }
            for k in 0..cell.events {
                cell.letters[k] = reader.one()?;
                if !matches!(cell.letters[k], b'B' | b'D' | b'R' | b'W' | b'S') {
                    return Err(reader.fault(4, 1));
                }
                cell.faces[0][k] = reader.two()?;
                cell.faces[1][k] = reader.two()?;
            }
            cell.last = map & 16 != 0;
            if map & 32 != 0 {
                cell.exit = reader.one()?;
                if cell.exit == 0 || cell.exit > 63 {
                    return Err(reader.fault(4, 1));
                }
            }
            let begin = cuts.len();
            for clock in 1..7usize {
                if map >> (5 + clock) & 1 == 0 {
                    continue;
                }
                let kind = reader.one()?;
                if kind > 15 || kind & 5 == 0 || kind & 3 == 2 || kind & 12 == 8 {
                    return Err(reader.fault(3, 1));
                }
                for (end, open, low) in [(1u8, 2u8, true), (4, 8, false)] {
                    if kind & end == 0 {
                        continue;
                    }
                    let units = i32::from(reader.two()?);
                    if units > 9_999 {
                        return Err(reader.fault(4, 2));
                    }
                    let sign = i32::from(kind & open == 0);
                    cuts.push(if low {
                        Cut { first: 0, second: clock, bound: sign - 2 * units }
                    } else {
                        Cut { first: clock, second: 0, bound: sign + 2 * units }
                    });
                }
            }
            cell.cuts = (begin, cuts.len());
            cells.push(cell);
        }
        reader.close()?;
        let mut model = Model { first, cells, cuts, out: Vec::new(), to: Vec::new() };
        model.rules()?;
        Ok(model)
    }

    /// The rules, and the steps out of each cell.
    fn rules(&mut self) -> Result<(), Slip> {
        let cells = &self.cells;
        let count = cells.len();
        if self.first >= count {
            return Err(Slip::new(6, self.first as u64));
        }
        for (number, cell) in cells.iter().enumerate() {
            if (0..cell.events).any(|k| cell.faces[0][k] as usize >= count || cell.faces[1][k] as usize >= count) {
                return Err(Slip::new(6, number as u64));
            }
        }
        for (number, cell) in cells.iter().enumerate() {
            for k in 0..cell.events {
                let mut letters = [0u8; 4];
                letters[..k].copy_from_slice(&cell.letters[..k]);
                letters[k..3].copy_from_slice(&cell.letters[k + 1..]);
                if (0..2).any(|side| cells[cell.faces[side][k] as usize].letters != letters) {
                    return Err(Slip::new(7, number as u64));
                }
            }
        }
        for (number, cell) in cells.iter().enumerate() {
            for m in 1..cell.events {
                for k in 0..m {
                    for sides in 0..4 {
                        let (a, b) = (sides & 1, sides >> 1);
                        let left = cells[cell.faces[b][m] as usize].faces[a][k];
                        let right = cells[cell.faces[a][k] as usize].faces[b][m - 1];
                        if left != right {
                            return Err(Slip::new(8, number as u64));
                        }
                    }
                }
            }
        }
        for (number, cell) in cells.iter().enumerate() {
            if (number == self.first || cell.last) && cell.events > 0 {
                return Err(Slip::new(9, number as u64));
            }
        }
        let mut steps: Vec<usize> = cells.iter().map(|cell| cell.events).collect();
        for cell in cells {
            cell.faces[0][..cell.events].iter().for_each(|lower| steps[*lower as usize] += 1);
        }
        if let Some(number) = steps.iter().position(|steps| *steps > 15) {
            return Err(Slip::new(10, number as u64));
        }
        let mut total = 0;
        self.out = steps
            .iter()
            .map(|steps| {
                (total, {
                    total += steps;
                    total
                })
            })
            .collect();
        self.to = vec![0; total];
        let mut next: Vec<usize> = self.out.iter().map(|(from, _)| *from).collect();
        let mut put = |from: usize, to: u16| {
            self.to[next[from]] = to;
            next[from] += 1;
        };
        for (number, cell) in cells.iter().enumerate() {
            cell.faces[1][..cell.events].iter().for_each(|upper| put(number, *upper));
        }
        for (number, cell) in cells.iter().enumerate() {
            cell.faces[0][..cell.events].iter().for_each(|lower| put(*lower as usize, number as u16));
        }
        Ok(())
    }

    pub(crate) fn cuts(&self, cell: usize) -> &[Cut] {
        let (from, to) = self.cells[cell].cuts;
        &self.cuts[from..to]
    }

    fn targets(&self, cell: usize) -> &[u16] {
        let (from, to) = self.out[cell];
        &self.to[from..to]
    }

    /// Counts of clocks 0 to 6.
    fn admits(&self, cell: usize, counts: &[i64; 7], scale: i64) -> bool {
        self.cuts(cell).iter().all(|cut| {
            let rest = i64::from(cut.bound >> 1) * scale - (counts[cut.first] - counts[cut.second]);
            rest > 0 || (rest == 0 && cut.bound & 1 == 1)
        })
    }
}

// ---------------------------------------------------------------- cover

/// The file is looked over before anything is lodged.
fn lodge(model: &Model, bytes: &[u8]) -> Result<Vec<(usize, Zone)>, Slip> {
    let mut reader = Reader::open(bytes)?;
    let count = reader.two()? as usize;
    if count > 256 {
        return Err(reader.fault(2, 2));
    }
    for _ in 0..count {
        reader.two()?;
        for _ in 0..reader.one()? {
            reader.one()?;
            reader.one()?;
            reader.two()?;
        }
    }
    reader.close()?;
    reader.at = 2;
    let mut entries = Vec::with_capacity(count);
    for number in 0..count {
        let cell = reader.two()? as usize;
        let mut zone = Zone::all();
        for _ in 0..reader.one()? {
            let [first, second, high, low] = reader.get::<4>()?;
            let word = i32::from(i16::from_be_bytes([high, low]));
            if first > 6 || second > 6 || first == second || !(-9_999..=9_999).contains(&(word >> 1)) {
                return Err(Slip::new(11, 0));
            }
            if !zone.cut(Cut { first: first as usize, second: second as usize, bound: word }) {
                return Err(Slip::new(16, 0));
            }
        }
        if cell >= model.cells.len() {
            return Err(Slip::new(13, number as u64));
        }
        if zone.empty {
            return Err(Slip::new(14, number as u64));
        }
        entries.push((cell, zone));
    }
    Ok(entries)
}

/// Duties, and how many stay open.
fn sweep(model: &Model, entries: &[(usize, Zone)]) -> (usize, usize) {
    let mut held: Vec<Vec<u16>> = vec![Vec::new(); model.cells.len()];
    for (number, (cell, _)) in entries.iter().enumerate() {
        held[*cell].push(number as u16);
    }
    let open_if = |fits: bool, image: &Zone, target: usize| -> usize {
        let settled = fits && (image.empty || held[target].iter().any(|holder| image.within(&entries[*holder as usize].1)));
        usize::from(!settled)
    };
    let mut opening = Zone::zero();
    let fits = opening.cut_by(model.cuts(model.first));
    let mut duties = 1;
    let mut open = open_if(fits, &opening, model.first);
    for (cell, set) in entries {
        let targets = model.targets(*cell);
        duties += 1 + targets.len();
        let mut inside = *set;
        if !inside.cut_by(model.cuts(*cell)) {
            open += 1 + targets.len();
            continue;
        }
        if inside.empty {
            continue;
        }
        let mut waited = inside;
        waited.delay();
        let fits = waited.cut_by(model.cuts(*cell));
        open += open_if(fits, &waited, *cell);
        inside.reset(model.cells[*cell].exit);
        for target in targets {
            let mut image = inside;
            let fits = image.cut_by(model.cuts(*target as usize));
            open += open_if(fits, &image, *target as usize);
        }
    }
    (duties, open)
}

// ---------------------------------------------------------------- trail

/// Cell, elapsed ticks and scale at the end.
fn walk(model: &Model, bytes: &[u8]) -> Result<(usize, i64, i64), Slip> {
    const MOST: i64 = 1_000_000_000;
    let mut reader = Reader::open(bytes)?;
    let scale = i64::from(reader.two()?);
    while reader.at < bytes.len() {
        match reader.one()? {
            b'w' => drop(reader.get::<4>()?),
            b's' => {
                reader.two()?;
                reader.one()?;
            }
            b'f' => drop(reader.one()?),
            _ => return Err(reader.fault(4, 1)),
        }
    }
    reader.at = 2;
    let mut counts = [0i64; 7];
    let mut elapsed = 0;
    let mut cell = model.first;
    if !(1..=1_000).contains(&scale) {
        return Err(Slip::new(18, 0));
    }
    if !model.admits(cell, &counts, scale) {
        return Err(Slip::new(22, 0));
    }
    while reader.at < bytes.len() {
        let refuse = |number: u8| Err(Slip::new(number, cell as u64));
        let letter = reader.one()?;
        if letter == b'w' {
            let ticks = i64::from(u32::from_be_bytes(reader.get::<4>()?));
            // no count is ever ahead of the elapsed time
            elapsed += ticks;
            if elapsed > MOST {
                return refuse(21);
            }
            counts[1..].iter_mut().for_each(|count| *count += ticks);
            if !model.admits(cell, &counts, scale) {
                return refuse(22);
            }
            continue;
        }
        let next = if letter == b's' {
            let into = reader.two()? as usize;
            let k = reader.one()? as usize;
            if into >= model.cells.len() || k == 0 || k > model.cells[into].events {
                return refuse(13);
            }
            if model.cells[into].faces[0][k - 1] as usize != cell {
                return refuse(20);
            }
            into
        } else {
            let k = reader.one()? as usize;
            if k == 0 || k > model.cells[cell].events {
                return refuse(20);
            }
            model.cells[cell].faces[1][k - 1] as usize
        };
        (1..7).filter(|clock| model.cells[cell].exit >> (clock - 1) & 1 == 1).for_each(|clock| counts[clock] = 0);
        if !model.admits(next, &counts, scale) {
            return refuse(22);
        }
        cell = next;
    }
    Ok((cell, elapsed, scale))
}

// ---------------------------------------------------------------- report

/// What the second line and the verdict need of a cover.
pub(crate) struct Judged {
    pub(crate) entries: usize,
    pub(crate) duties: usize,
    pub(crate) open: usize,
    pub(crate) none_final: bool,
}

fn judge(model: &Model, cover: Option<&[u8]>) -> Result<Judged, Slip> {
    let entries = cover.map_or(Ok(Vec::new()), |bytes| lodge(model, bytes))?;
    let (duties, open) = sweep(model, &entries);
    let none_final = !entries.iter().any(|(cell, _)| model.cells[*cell].last);
    Ok(Judged { entries: entries.len(), duties, open, none_final })
}

pub fn fast_text(files: &Files) -> String {
    text_by(files, judge)
}

pub(crate) type Judge = fn(&Model, Option<&[u8]>) -> Result<Judged, Slip>;

/// The report, with the cover judged in one way or another.
pub(crate) fn text_by(files: &Files, judge: Judge) -> String {
    let mut lines = String::new();
    if let Err(slip) = lines_by(files, judge, &mut lines) {
        lines.push_str(&slip.line());
    }
    lines
}

fn lines_by(files: &Files, judge: Judge, lines: &mut String) -> Result<(), Slip> {
    let model = Model::read(files.model.unwrap_or(&[]))?;
    lines.push_str(&format!("cells {}\n", model.cells.len()));
    let Judged { entries, duties, open, none_final } = judge(&model, files.cover)?;
    lines.push_str(&format!("entries {entries} duties {duties} open {open}\n"));
    let mut reached = false;
    if let Some(bytes) = files.trail {
        let (cell, elapsed, scale) = walk(&model, bytes)?;
        lines.push_str(&format!("trail cell {cell} elapsed {}\n", tenths(elapsed, scale)));
        reached = model.cells[cell].last;
    } else {
        lines.push_str("trail none\n");
    }
    lines.push_str(match (reached, open == 0 && none_final) {
        (true, _) => "verdict reached\n",
        (false, true) => "verdict shut\n",
        _ => "verdict undecided\n",
    });
    Ok(())
}
