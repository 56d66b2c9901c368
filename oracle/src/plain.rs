//! The proved judge's own steps in plain Rust, for timings alone: how much slower is the proved code than the same work without proofs? Every call
//! brings a zone to closed form, as it may be any 49 numbers; several gaps are closed once; an image is closed once and then compared with the
//! live entries in turn; the steps out of a cell are looked up among all cells. Reading, trails and lines are those of `fast`.

use crate::bytes::Slip;
use crate::fast::{text_by, Cut, Judged, Model, Reader};
use crate::report::Files;

pub const FREE: i32 = i32::MAX;
const MOST: i32 = 4_000_000;
const MODEST: i32 = 31_250;

#[derive(Clone, Copy, PartialEq, Eq, Debug)]
#[repr(C)]
pub struct Zone {
    pub bounds: [i32; 49],
}

fn is_within(b: i32, most: i32) -> bool {
    b == FREE || (-2 * most <= b && b <= 2 * most + 1)
}

fn all_within(m: &[i32; 49], most: i32) -> bool {
    for b in m {
        if !is_within(*b, most) {
            return false;
        }
    }
    true
}

fn add(x: i32, y: i32) -> i32 {
    if x == FREE || y == FREE {
        FREE
    } else {
        x + y - ((x | y) & 1)
    }
}

fn close(m: &mut [i32; 49]) -> bool {
    for k in 0..7 {
        if m[8 * k] < 1 {
            return false;
        }
        let mut row = [0; 7];
        row.copy_from_slice(&m[7 * k..7 * k + 7]);
        for i in 0..7 {
            let via = m[7 * i + k];
            for j in 0..7 {
                let sum = add(via, row[j]);
                let b = m[7 * i + j];
                m[7 * i + j] = if sum < b { sum } else { b };
            }
        }
    }
    (0..7).all(|k| m[8 * k] >= 1)
}

fn canonicalize(m: &mut [i32; 49]) -> bool {
    for k in 0..7 {
        m[k] = m[k].min(1);
        m[8 * k] = m[8 * k].min(1);
    }
    if close(m) {
        true
    } else {
        *m = [0; 49];
        false
    }
}

fn keep(zone: &mut Zone, bounds: [i32; 49]) -> bool {
    let small = all_within(&bounds, MOST);
    if small {
        zone.bounds = bounds;
    }
    small
}

fn home(mask: u8, i: usize) -> usize {
    if i == 0 || (mask >> (i - 1)) & 1 == 1 {
        0
    } else {
        i
    }
}

fn is_good(cut: Cut) -> bool {
    cut.first <= 6 && cut.second <= 6 && cut.first != cut.second && (-9_999..=9_999).contains(&(cut.bound >> 1))
}

fn load(zone: &Zone) -> [i32; 49] {
    let mut m = [FREE; 49];
    for p in 0..49 {
        m[p] = if is_within(zone.bounds[p], MOST) { zone.bounds[p] } else { FREE };
    }
    m
}

pub fn all() -> Zone {
    let mut bounds = [FREE; 49];
    for k in 0..7 {
        bounds[k] = 1;
        bounds[8 * k] = 1;
    }
    Zone { bounds }
}

pub fn zero() -> Zone {
    Zone { bounds: [1; 49] }
}

// The calls write the new zone over the old one; false: refused. A cut's bound is twice the constant, plus one for "at most".

pub fn gap(zone: &mut Zone, cut: Cut) -> bool {
    if !is_good(cut) {
        return false;
    }
    let mut m = load(zone);
    let p = 7 * cut.first + cut.second;
    m[p] = m[p].min(cut.bound);
    canonicalize(&mut m);
    keep(zone, m)
}

pub fn cut(zone: &mut Zone, cuts: &[Cut]) -> bool {
    let mut m = load(zone);
    if cuts.is_empty() || !all_within(&m, MODEST) {
        return cuts.iter().all(|cut| gap(zone, *cut));
    }
    for cut in cuts {
        if !is_good(*cut) {
            return false;
        }
        let p = 7 * cut.first + cut.second;
        m[p] = m[p].min(cut.bound);
    }
    canonicalize(&mut m);
    zone.bounds = m;
    true
}

pub fn reset(zone: &mut Zone, mask: u8) -> bool {
    if mask >= 64 {
        return false;
    }
    let mut m = load(zone);
    let mut to = m;
    canonicalize(&mut m);
    for p in 0..49 {
        to[p] = m[7 * home(mask, p / 7) + home(mask, p % 7)];
    }
    keep(zone, to)
}

pub fn delay(zone: &mut Zone) -> bool {
    let mut m = load(zone);
    if canonicalize(&mut m) {
        for i in 1..7 {
            m[7 * i] = FREE;
        }
    }
    keep(zone, m)
}

pub fn within(low: &Zone, high: &Zone) -> bool {
    let mut m = load(low);
    let high = load(high);
    !canonicalize(&mut m) || (0..49).all(|p| m[p] <= high[p])
}

fn close_zone(zone: &mut Zone) {
    let mut m = load(zone);
    canonicalize(&mut m);
    zone.bounds = m;
}

fn closed_is_empty(closed: &Zone) -> bool {
    closed.bounds[0] < 1
}

fn closed_within(closed: &Zone, other: &Zone) -> bool {
    let under = |p: usize| closed.bounds[p] <= other.bounds[p] || !is_within(other.bounds[p], MOST);
    closed_is_empty(closed) || (0..49).all(under)
}

fn cut_closed(zone: &mut Zone, cuts: &[Cut]) -> bool {
    if cuts.is_empty() {
        close_zone(zone);
        return true;
    }
    cut(zone, cuts)
}

const OPEN: u16 = 65_535;
const EMPTY: u16 = 65_534;
const STEPS: usize = 16;

#[derive(Clone, Copy)]
struct Entry {
    cell: u16,
    set: Zone,
}

fn cuts_of(bytes: &[u8]) -> Vec<Cut> {
    let word = |gap: &[u8]| i32::from(i16::from_be_bytes([gap[2], gap[3]]));
    bytes.chunks(4).map(|gap| Cut { first: gap[0] as usize, second: gap[1] as usize, bound: word(gap) }).collect()
}

/// The whole file is read before anything is lodged.
fn read_cover(bytes: &[u8]) -> Result<Vec<(u16, Vec<Cut>)>, Slip> {
    let mut reader = Reader::open(bytes)?;
    let count = reader.two()?;
    if count > 256 {
        return Err(reader.fault(2, 2));
    }
    let mut entries = Vec::new();
    for _ in 0..count {
        let cell = reader.two()?;
        let mut gaps = Vec::new();
        for _ in 0..reader.one()? {
            gaps.push(reader.one()?);
            gaps.push(reader.one()?);
            gaps.extend(reader.get::<2>()?);
        }
        entries.push((cell, cuts_of(&gaps)));
    }
    reader.close()?;
    Ok(entries)
}

fn lodge(model: &Model, cover: &[(u16, Vec<Cut>)], rows: &mut Vec<Entry>) -> Result<(), Slip> {
    for (number, (cell, cuts)) in cover.iter().enumerate() {
        let refused = |number: u8, place: usize| Err(Slip::new(number, place as u64));
        let mut set = all();
        if !cut(&mut set, cuts) {
            return refused(if cuts.iter().all(|cut| is_good(*cut)) { 16 } else { 11 }, 0);
        }
        if *cell as usize >= model.cells.len() {
            return refused(13, number);
        }
        let mut closed = set;
        close_zone(&mut closed);
        if closed_is_empty(&closed) {
            return refused(14, number);
        }
        rows.push(Entry { cell: *cell, set });
    }
    Ok(())
}

/// Where the steps out of a cell lead: wait, the finishes, the starts in the order of all cells.
fn targets(model: &Model, cell: usize) -> ([u16; STEPS], usize) {
    let mut list = [0; STEPS];
    let mut count = 0;
    let mut push = |to: u16| {
        if count < STEPS {
            list[count] = to;
            count += 1;
        }
    };
    push(cell as u16);
    let here = &model.cells[cell];
    here.faces[1][..here.events].iter().for_each(|upper| push(*upper));
    for (number, other) in model.cells.iter().enumerate() {
        for lower in &other.faces[0][..other.events] {
            if *lower as usize == cell {
                push(number as u16);
            }
        }
    }
    (list, count)
}

fn mark(rows: &[Entry], goal: usize, comes: bool, closed: &Zone) -> u16 {
    if !comes {
        return OPEN;
    }
    if closed_is_empty(closed) {
        return EMPTY;
    }
    rows.iter().position(|row| row.cell as usize == goal && closed_within(closed, &row.set)).map_or(OPEN, |holder| holder as u16)
}

fn sweep(model: &Model, rows: &[Entry], marks: &mut [u16]) -> usize {
    let first = model.first;
    let mut image = zero();
    let comes = cut_closed(&mut image, model.cuts(first));
    let opening = mark(rows, first, comes, &image);
    for (number, row) in rows.iter().enumerate() {
        let cell = row.cell as usize;
        let (list, count) = targets(model, cell);
        let mut inside = row.set;
        let is_inside = cut(&mut inside, model.cuts(cell));
        let mut left = inside;
        let is_left = is_inside && reset(&mut left, model.cells[cell].exit);
        for step in 0..count {
            let goal = list[step] as usize;
            let mut image = if step == 0 { inside } else { left };
            let onward = if step == 0 { is_inside && delay(&mut image) } else { is_left };
            let comes = onward && cut_closed(&mut image, model.cuts(goal));
            marks[STEPS * number + step] = mark(rows, goal, comes, &image);
        }
    }
    let open_of = |(number, row): (usize, &Entry)| {
        let (_, count) = targets(model, row.cell as usize);
        marks[STEPS * number..STEPS * number + count].iter().filter(|mark| **mark == OPEN).count()
    };
    usize::from(opening == OPEN) + rows.iter().enumerate().map(open_of).sum::<usize>()
}

fn judge(model: &Model, cover: Option<&[u8]>) -> Result<Judged, Slip> {
    let cover = cover.map_or(Ok(Vec::new()), read_cover)?;
    let mut rows = Vec::with_capacity(256);
    let mut marks = vec![OPEN; 256 * STEPS];
    lodge(model, &cover, &mut rows)?;
    let duties = 1 + rows.iter().map(|row| targets(model, row.cell as usize).1).sum::<usize>();
    let open = sweep(model, &rows, &mut marks);
    let none_final = !rows.iter().any(|row| model.cells[row.cell as usize].last);
    Ok(Judged { entries: rows.len(), duties, open, none_final })
}

pub fn plain_text(files: &Files) -> String {
    text_by(files, judge)
}
