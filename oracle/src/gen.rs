//! Random tasks. Models are products of small graphs with pieces missing; covers come mostly from a search forwards; trails mostly from a simulation;
//! then a part of all is perturbed, broken or damaged.

use crate::bytes::{write_cover, write_model, write_trail, Told, Written};
use crate::fast::{Cut, Zone, NONE};
use crate::plan::{Cell, End, Event, Plan, Step};
use crate::prng::Prng;
use crate::sets::Gap;
use crate::trail::Trail;
use std::collections::{BTreeMap, BTreeSet, VecDeque};

pub struct Task {
    pub model: Option<Vec<u8>>,
    pub cover: Option<Vec<u8>>,
    pub trail: Option<Vec<u8>>,
}

const LETTERS: &[u8] = b"BDRWS";

// ---------------------------------------------------------------- models

struct Graph {
    vertices: usize,
    edges: Vec<(u8, usize, usize)>,
}

impl Graph {
    fn random(rng: &mut Prng, vertices: usize, edges: usize) -> Graph {
        let ring = rng.chance(50);
        let edges = (0..edges)
            .map(|e| {
                let from = if ring || rng.chance(60) { e % vertices } else { rng.below(vertices) };
                let to = if ring { (e + 1) % vertices } else { rng.below(vertices) };
                (rng.pick(LETTERS), from, to)
            })
            .collect();
        Graph { vertices, edges }
    }

    fn size(&self) -> usize {
        self.vertices + self.edges.len()
    }
}

/// All tuples of vertices and edges, less some at random with everything that needs them, numbered at random.
fn product(rng: &mut Prng, graphs: &[Graph], holes: usize) -> Plan {
    let mut tuples: Vec<Vec<usize>> = vec![Vec::new()];
    for graph in graphs {
        tuples = tuples.into_iter().flat_map(|tuple| (0..graph.size()).map(move |part| [tuple.clone(), vec![part]].concat())).collect();
    }
    let busy = |tuple: &[usize]| (0..graphs.len()).filter(|g| tuple[*g] >= graphs[*g].vertices).collect::<Vec<_>>();
    let face = |tuple: &[usize], g: usize, upper: bool| {
        let (_, from, to) = graphs[g].edges[tuple[g] - graphs[g].vertices];
        let mut face = tuple.to_vec();
        face[g] = if upper { to } else { from };
        face
    };
    tuples.retain(|tuple| busy(tuple).len() <= 4);
    let mut alive: BTreeSet<Vec<usize>> = tuples.iter().cloned().collect();
    for _ in 0..holes {
        let tuple = &tuples[rng.below(tuples.len())];
        if !busy(tuple).is_empty() {
            alive.remove(tuple);
        }
    }
    loop {
        let whole =
            |tuple: &Vec<usize>| busy(tuple).iter().all(|g| [false, true].iter().all(|upper| alive.contains(&face(tuple, *g, *upper))));
        let next: BTreeSet<Vec<usize>> = alive.iter().filter(|tuple| whole(tuple)).cloned().collect();
        if next.len() == alive.len() {
            break;
        }
        alive = next;
    }
    let mut order: Vec<Vec<usize>> = alive.into_iter().collect();
    if rng.chance(85) {
        rng.shuffle(&mut order);
    }
    let number: BTreeMap<&Vec<usize>, usize> = order.iter().enumerate().map(|(n, tuple)| (tuple, n)).collect();
    let cells = order
        .iter()
        .map(|tuple| {
            let event = |g: &usize| Event {
                letter: graphs[*g].edges[tuple[*g] - graphs[*g].vertices].0,
                lower: number[&face(tuple, *g, false)],
                upper: number[&face(tuple, *g, true)],
            };
            Cell { events: busy(tuple).iter().map(event).collect(), ..Cell::default() }
        })
        .collect();
    let mut plan = Plan { first: 0, cells };
    let idle = idle_cells(&plan);
    plan.first = rng.pick(&idle);
    plan
}

fn idle_cells(plan: &Plan) -> Vec<usize> {
    (0..plan.cells.len()).filter(|cell| plan.cells[*cell].events.is_empty()).collect()
}

/// Each cell has one other cell for all its faces, with one event less.
fn tower(rng: &mut Prng) -> Plan {
    let mut cells = vec![Cell::default()];
    let letter = rng.pick(LETTERS);
    let size = 2 + rng.below(20);
    while cells.len() < size {
        let below = rng.below(cells.len());
        let count = cells[below].events.len() + 1;
        if count <= 4 {
            cells.push(Cell { events: vec![Event { letter, lower: below, upper: below }; count], ..Cell::default() });
        }
    }
    Plan { first: 0, cells }
}

fn shape(rng: &mut Prng) -> Plan {
    let kind = rng.below(100);
    if kind < 8 {
        return tower(rng);
    }
    if kind < 12 {
        // one vertex with loops: around the limit of 16 steps
        let loops = rng.between(12, 18) as usize;
        let graph = Graph { vertices: 1, edges: (0..loops).map(|_| (rng.pick(LETTERS), 0, 0)).collect() };
        return product(rng, &[graph], 0);
    }
    let sizes: &[(usize, usize)] = match kind {
        12..=34 => &[(3, 3)],
        35..=64 => &[(3, 2), (2, 2)],
        65..=84 => &[(2, 2), (2, 1), (2, 1)],
        85..=90 => &[(2, 1), (2, 1), (2, 1), (1, 1)],
        91..=94 => &[(7, 7), (7, 7)],
        95..=97 => &[(3, 3), (3, 3), (3, 2)],
        _ => &[(100, 100)],
    };
    let graphs: Vec<Graph> = sizes
        .iter()
        .map(|(v, e)| {
            let vertices = if *v > 6 { *v } else { 1 + rng.below(*v + 1) };
            let edges = if *e > 6 { *e } else { 1 + rng.below(*e + 1) };
            Graph::random(rng, vertices, edges)
        })
        .collect();
    let holes = if rng.chance(40) { 1 + rng.below(4) } else { 0 };
    let mut plan = product(rng, &graphs, holes);
    if plan.cells.len() > 200 {
        plan = product(rng, &graphs[..1], holes);
    }
    if plan.cells.len() > 190 && rng.chance(50) {
        // exactly as many as there may be
        plan.cells.resize_with(200, Cell::default);
    }
    plan
}

fn dress(rng: &mut Prng, plan: &mut Plan) {
    let largest = if rng.chance(88) { rng.pick(&[2i64, 4, 6, 10]) } else { 9_999 };
    let clocks = rng.pick(&[1usize, 2, 3, 6]);
    let density = rng.pick(&[0usize, 20, 40, 70]);
    let lows = rng.pick(&[0usize, 20, 50]);
    let resets = rng.pick(&[0usize, 30, 60, 90]);
    for cell in &mut plan.cells {
        for clock in 1..=clocks {
            if rng.chance(density) {
                let low = End { units: rng.between(0, largest), open: rng.chance(30) };
                let high = End { units: rng.between(low.units.min(largest - 1), largest), open: rng.chance(25) };
                if rng.chance(lows) {
                    cell.low.insert(clock, low);
                }
                if rng.chance(80) {
                    cell.high.insert(clock, high);
                }
            }
            if rng.chance(resets / 2) {
                cell.exit.insert(clock);
            }
        }
        if rng.chance(resets / 3) {
            cell.exit.insert(1 + rng.below(6));
        }
        if rng.chance(resets / 6) {
            cell.exit.extend(1..=6);
        }
    }
    let first = plan.first;
    if rng.chance(93) {
        let cell = &mut plan.cells[first];
        cell.low.clear();
        for end in cell.high.values_mut() {
            end.open &= end.units > 0;
        }
    }
    if rng.chance(25) {
        plan.cells[first].high.clear();
    }
}

fn break_rule(rng: &mut Prng, plan: &mut Plan) {
    let count = plan.cells.len();
    if plan.first >= count {
        return;
    }
    let busy: Vec<usize> = (0..count).filter(|cell| !plan.cells[*cell].events.is_empty()).collect();
    let square: Vec<usize> = busy.iter().copied().filter(|cell| plan.cells[*cell].events.len() >= 2).collect();
    let rule = rng.pick(&[6usize, 7, 8, 8, 8, 9, 9, 10]);
    let beyond = rng.pick(&[count, count + 1, 200, 255, 256, 65_535]);
    if rule == 6 && (rng.chance(40) || busy.is_empty()) {
        plan.first = beyond.max(count);
        return;
    }
    if rule == 10 {
        let letter = rng.pick(LETTERS);
        let from = plan.first;
        while plan.cells.len() < 200 && plan.steps_out(from).len() <= 15 + rng.below(3) {
            plan.cells.push(Cell { events: vec![Event { letter, lower: from, upper: from }], ..Cell::default() });
        }
        return;
    }
    if busy.is_empty() {
        return;
    }
    let cell = if rule == 8 && !square.is_empty() { rng.pick(&square) } else { rng.pick(&busy) };
    let event = rng.below(plan.cells[cell].events.len());
    let upper = rng.chance(50);
    let mut to = beyond.max(count);
    match rule {
        6 => {}
        7 if rng.chance(50) => {
            plan.cells[cell].events[event].letter = rng.pick(LETTERS);
            return;
        }
        7 => to = rng.below(count),
        8 => {
            let mut letters = plan.cells[cell].letters();
            letters.remove(event);
            let alike: Vec<usize> = (0..count).filter(|other| plan.cells[*other].letters() == letters).collect();
            if !alike.is_empty() {
                to = rng.pick(&alike);
            }
        }
        _ => {
            if rng.chance(50) {
                plan.first = cell;
            } else {
                plan.cells[cell].last = true;
            }
            return;
        }
    }
    let event = &mut plan.cells[cell].events[event];
    if upper {
        event.upper = to;
    } else {
        event.lower = to;
    }
}

// ---------------------------------------------------------------- trails

fn simulate(rng: &mut Prng, plan: &Plan, steps: usize) -> Option<(usize, Vec<Told>, usize)> {
    let scale = if rng.chance(80) { rng.between(1, 12) } else { rng.pick(&[1_000i64, 999, 100, 64, 7]) };
    let mut trail = Trail::set_out(plan, scale).ok()?;
    let mut told = Vec::new();
    let idle = rng.chance(20);
    let long = if rng.chance(8) { 40 } else { 2 };
    for _ in 0..steps {
        let now = trail.now();
        let out = plan.steps_out(now.cell);
        for _ in 0..6 {
            let step = match if idle && rng.chance(50) { Step::Wait } else { rng.pick(&out) } {
                Step::Wait => {
                    let room = |(clock, end): (&usize, &End)| (end.units * scale - i64::from(end.open) - now.counts[clock - 1]).max(0);
                    let most = plan.cells[now.cell].high.iter().map(room).min();
                    let free = rng.pick(&[0, 1, scale, 3 * scale, 10 * scale, 10 * scale]);
                    let free = if rng.chance(long) { rng.pick(&[400_000_000i64, 999_999_999, 1_000_000_000]) } else { free };
                    let most = most.unwrap_or(free).min(1_000_000_000);
                    Told::Wait(if rng.chance(30) { most } else { rng.between(0, most) })
                }
                Step::Finish(k) => Told::Finish(k),
                Step::Start(cell, k) => Told::Start(cell, k),
            };
            if trail.step(plan, step).is_ok() {
                told.push(step);
                break;
            }
        }
    }
    if rng.chance(8) {
        // up to the limit of the counts or of the elapsed time, or one beyond
        let now = trail.now();
        let most = if rng.chance(50) { now.elapsed } else { *now.counts.iter().max().unwrap() };
        told.push(Told::Wait(1_000_000_000 - most + i64::from(rng.chance(50))));
    }
    Some((scale as usize, told, trail.now().cell))
}

fn perturb_trail(rng: &mut Prng, plan: &Plan, scale: &mut usize, told: &mut Vec<Told>) {
    let at = rng.below(told.len() + 1);
    let cell = if rng.chance(70) { rng.below(plan.cells.len()) } else { rng.pick(&[plan.cells.len(), 199, 200, 256, 65_535]) };
    let event = if rng.chance(60) { rng.between(1, 2) as usize } else { rng.pick(&[0usize, 3, 4, 5, 255]) };
    let long = rng.pick(&[1u32, 50, 600_000_000, 999_999_999, 1_000_000_000, 1_000_000_001, 2_000_000_000, u32::MAX, u32::MAX - 1]);
    match rng.below(9) {
        0 => *scale = rng.pick(&[0usize, 1, 1_000, 1_001, 32_768, 65_535]),
        1 | 2 => told.insert(at, Told::Wait(i64::from(long))),
        3 | 4 => told.insert(at, Told::Start(cell, event)),
        5 | 6 => told.insert(at, Told::Finish(event)),
        7 if !told.is_empty() => {
            told.remove(at.min(told.len() - 1));
        }
        _ => {
            let other = rng.below(told.len().max(1));
            if at < told.len() {
                told.swap(at, other);
            }
        }
    }
}

// ---------------------------------------------------------------- covers

fn cuts_of(cell: &Cell) -> Vec<Cut> {
    let mut cuts = Vec::with_capacity(12);
    for clock in 1..=6 {
        if let Some(end) = cell.low.get(&clock) {
            cuts.push(Cut { first: 0, second: clock, bound: -2 * end.units as i32 + i32::from(!end.open) });
        }
        if let Some(end) = cell.high.get(&clock) {
            cuts.push(Cut { first: clock, second: 0, bound: 2 * end.units as i32 + i32::from(!end.open) });
        }
    }
    cuts
}

fn mask_of(cell: &Cell) -> u8 {
    cell.exit.iter().map(|clock| 1u8 << (clock - 1)).sum()
}

/// What the search needs of a model: cuts, exit masks and targets of the starts and finishes, by cell.
struct Table {
    cuts: Vec<Vec<Cut>>,
    masks: Vec<u8>,
    targets: Vec<Vec<usize>>,
}

impl Table {
    fn of(plan: &Plan) -> Table {
        let mut targets: Vec<Vec<usize>> = plan.cells.iter().map(|cell| cell.events.iter().map(|e| e.upper).collect()).collect();
        for (number, cell) in plan.cells.iter().enumerate() {
            for event in &cell.events {
                targets[event.lower].push(number);
            }
        }
        Table { cuts: plan.cells.iter().map(cuts_of).collect(), masks: plan.cells.iter().map(mask_of).collect(), targets }
    }
}

/// A search forwards from the opening: sets that let time pass, with bounds above a size forgotten. Closed under steps unless it is cut off.
fn search(plan: &Plan, size: i32, limit: usize) -> Vec<(usize, Zone)> {
    let table = Table::of(plan);
    let mut found: Vec<(usize, Zone)> = Vec::new();
    let mut opening = Zone::zero();
    opening.cut_by(&table.cuts[plan.first]);
    let mut queue = VecDeque::from([(plan.first, opening)]);
    while let Some((cell, image)) = queue.pop_front() {
        if image.empty || found.iter().any(|(other, set)| *other == cell && image.within(set)) {
            continue;
        }
        if found.len() >= limit {
            break;
        }
        let mut set = image;
        set.delay();
        set.cut_by(&table.cuts[cell]);
        for i in 0..7 {
            for j in 0..7 {
                let bound = &mut set.bounds[7 * i + j];
                if i != j && *bound != NONE && *bound >> 1 > size {
                    *bound = NONE;
                } else if i != j && *bound >> 1 < -size {
                    *bound = -2 * size;
                }
            }
        }
        set.close();
        found.push((cell, set));
        set.cut_by(&table.cuts[cell]);
        set.reset(table.masks[cell]);
        for target in &table.targets[cell] {
            let mut next = set;
            next.cut_by(&table.cuts[*target]);
            if !next.empty {
                queue.push_back((*target, next));
            }
        }
    }
    found
}

fn reachable(plan: &Plan) -> BTreeSet<usize> {
    let mut seen = BTreeSet::from([plan.first]);
    let mut queue = vec![plan.first];
    while let Some(cell) = queue.pop() {
        for step in plan.steps_out(cell) {
            let next = match step {
                Step::Wait => cell,
                Step::Finish(k) => plan.cells[cell].events[k - 1].upper,
                Step::Start(into, _) => into,
            };
            if seen.insert(next) {
                queue.push(next);
            }
        }
    }
    seen
}

fn random_gap(rng: &mut Prng, largest: i64) -> Gap {
    let first = rng.below(7);
    let second = (first + 1 + rng.below(6)) % 7;
    Gap { first, second, units: rng.between(-largest / 2, largest), at_most: rng.chance(60) }
}

fn written(rng: &mut Prng, found: &[(usize, Zone)]) -> Vec<Written> {
    let mixed = rng.chance(50);
    let loss = if rng.chance(20) { rng.pick(&[5usize, 15, 40]) } else { 0 };
    let fits = |gap: &Gap| gap.units.abs() <= 9_999;
    found
        .iter()
        .map(|(cell, set)| {
            let mut gaps: Vec<Gap> = set.gaps().into_iter().filter(fits).collect();
            if mixed {
                rng.shuffle(&mut gaps);
            }
            gaps.retain(|_| !rng.chance(loss));
            Written { cell: *cell, gaps }
        })
        .collect()
}

fn chain(rng: &mut Prng) -> Vec<Gap> {
    let units = rng.pick(&[9_999i64, 9_998, -9_999, -9_998]);
    let mut clocks: Vec<usize> = (0..7).collect();
    rng.shuffle(&mut clocks);
    if units < 0 && rng.chance(70) {
        let zero = clocks.iter().position(|clock| *clock == 0).unwrap();
        clocks.swap(0, zero);
    }
    let at_most = rng.chance(60);
    let mut gaps: Vec<Gap> = clocks.windows(2).map(|two| Gap { first: two[0], second: two[1], units, at_most }).collect();
    if rng.chance(50) {
        gaps.push(Gap { first: clocks[6], second: clocks[0], units: rng.pick(&[9_999i64, -9_999, 0]), at_most: true });
    }
    if rng.chance(50) {
        rng.shuffle(&mut gaps);
    }
    gaps
}

fn cover(rng: &mut Prng, plan: &Plan, shaped: bool) -> Vec<Written> {
    if !shaped || plan.cells.is_empty() {
        return Vec::new();
    }
    let kind = rng.below(100);
    let mut entries = match kind {
        0..=69 => {
            let size = if kind < 60 { rng.pick(&[3i32, 6, 12]) } else { 9_999 };
            let limit = if rng.chance(80) { 60 } else { 256 };
            let found = search(plan, size, limit);
            written(rng, &found)
        }
        70..=79 => reachable(plan).into_iter().map(|cell| Written { cell, gaps: Vec::new() }).collect(),
        80..=91 => {
            let largest = rng.pick(&[2i64, 6, 9_999]);
            let rough = rng.chance(30);
            (0..rng.below(12))
                .map(|_| Written {
                    cell: rng.below(plan.cells.len()),
                    gaps: (0..rng.below(7)).map(|_| random_gap(rng, largest)).filter(|gap| gap.units > 0 || rough).collect(),
                })
                .collect()
        }
        92..=95 => (0..1 + rng.below(6)).map(|_| Written { cell: rng.below(plan.cells.len()), gaps: chain(rng) }).collect(),
        _ => {
            let mut entries: Vec<Written> = reachable(plan).into_iter().map(|cell| Written { cell, gaps: Vec::new() }).collect();
            let busy = rng.chance(50);
            let long = if rng.chance(20) { rng.pick(&[55usize, 56, 57, 58]) } else { 0 };
            let cells: Vec<usize> = entries.iter().map(|entry| entry.cell).collect();
            while entries.len() < 256 {
                let few = long.max(rng.below(5));
                let gaps = (0..few).map(|_| random_gap(rng, 40)).map(|gap| Gap { units: gap.units.abs() + 1, ..gap }).collect();
                let cell = if busy { cells[0] } else { rng.pick(&cells) };
                entries.push(Written { cell, gaps });
            }
            entries
        }
    };
    if rng.chance(30) {
        rng.shuffle(&mut entries);
    }
    entries
}

fn perturb_cover(rng: &mut Prng, plan: &Plan, entries: &mut Vec<Written>) {
    if entries.is_empty() {
        entries.push(Written { cell: rng.below(plan.cells.len()), gaps: vec![random_gap(rng, 5)] });
        return;
    }
    let at = rng.below(entries.len());
    let kind = rng.below(16);
    match kind {
        0 | 1 => {
            entries.remove(at);
        }
        2..=6 => {
            let entry = &mut entries[at];
            if entry.gaps.is_empty() {
                entry.gaps.push(random_gap(rng, 6));
            } else {
                let which = rng.below(entry.gaps.len());
                match kind {
                    2 => entry.gaps[which].units = (entry.gaps[which].units + 1).min(9_999),
                    3 => entry.gaps[which].units = (entry.gaps[which].units - 1).max(-9_999),
                    4 => entry.gaps[which].at_most ^= true,
                    5 => {
                        entry.gaps.remove(which);
                    }
                    _ => entry.gaps.push(random_gap(rng, 6)),
                }
            }
        }
        7 => entries[at].cell = rng.below(plan.cells.len()),
        8 => entries[at].cell = rng.pick(&[plan.cells.len(), 200, 255, 256, 65_535]),
        9 => {
            let gap = random_gap(rng, 9);
            let back = Gap {
                first: gap.second,
                second: gap.first,
                units: -gap.units - i64::from(rng.chance(70)),
                at_most: gap.at_most && rng.chance(70),
            };
            entries[at].gaps.extend([gap, back]);
        }
        10 => {
            let mut gap = random_gap(rng, 9);
            match rng.below(4) {
                0 => gap.first = rng.pick(&[7usize, 8, 255]),
                1 => gap.second = rng.pick(&[7usize, 8, 255]),
                2 => gap.second = gap.first,
                _ => gap = Gap { first: 7, second: 7, units: 0, at_most: true },
            }
            let place = rng.below(entries[at].gaps.len() + 1);
            entries[at].gaps.insert(place, gap);
        }
        11 | 12 => {
            let mut gap = random_gap(rng, 9);
            gap.units = rng.pick(&[9_999i64, 9_999, 9_999, -9_999, 10_000, -10_000, 16_383, -16_384]);
            if rng.chance(40) {
                gap.second = 0;
                gap.first = 1 + rng.below(6);
            }
            let place = rng.below(entries[at].gaps.len() + 1);
            entries[at].gaps.insert(place, gap);
        }
        13 => {
            let entry = entries[at].clone();
            entries.push(entry);
        }
        14 => {
            let gap = random_gap(rng, 9);
            entries[at].gaps.extend(std::iter::repeat_n(gap, 255));
        }
        _ => {
            let entry = Written { cell: at, gaps: Vec::new() };
            let want = rng.pick(&[255usize, 256, 257]);
            while entries.len() < want {
                entries.push(entry.clone());
            }
        }
    }
}

// ---------------------------------------------------------------- files

fn damage(rng: &mut Prng, file: &mut Option<Vec<u8>>) {
    let Some(bytes) = file else { return };
    match rng.below(14) {
        0..=3 => bytes.truncate(rng.below(bytes.len() + 1)),
        4..=7 if !bytes.is_empty() => {
            let at = if rng.chance(25) { rng.below(bytes.len().min(6)) } else { rng.below(bytes.len()) };
            if rng.chance(50) {
                bytes[at] ^= 1 << rng.below(8);
            } else {
                bytes[at] = rng.next() as u8;
            }
        }
        8 | 9 => bytes.extend((0..1 + rng.below(5)).map(|_| rng.next() as u8).collect::<Vec<_>>()),
        10 => bytes.resize(rng.pick(&[59_999usize, 60_000, 60_001, 60_002, 65_537]), 0),
        11 => bytes.clear(),
        12 => *file = None,
        _ => {
            let at = rng.below(bytes.len() + 1);
            bytes.insert(at, rng.next() as u8);
        }
    }
}

/// One field of a good model file is given a value at or beyond its limits.
fn misuse(rng: &mut Prng, bytes: &mut [u8]) {
    #[derive(Clone, Copy, PartialEq)]
    enum Kind {
        Count,
        First,
        Map,
        Letter,
        Face,
        Exit,
        Ends,
        End,
    }
    let mut fields = vec![(0usize, Kind::Count), (2, Kind::First)];
    let mut at = 4;
    while at + 1 < bytes.len() {
        let map = usize::from(bytes[at]) * 256 + usize::from(bytes[at + 1]);
        fields.push((at, Kind::Map));
        at += 2;
        for _ in 0..(map & 15).count_ones() {
            fields.extend([(at, Kind::Letter), (at + 1, Kind::Face), (at + 3, Kind::Face)]);
            at += 5;
        }
        if map & 32 != 0 {
            fields.push((at, Kind::Exit));
            at += 1;
        }
        for _ in 0..(map >> 6).count_ones() {
            fields.push((at, Kind::Ends));
            let ends = (bytes[at] & 5).count_ones() as usize;
            fields.extend((0..ends).map(|end| (at + 1 + 2 * end, Kind::End)));
            at += 1 + 2 * ends;
        }
    }
    let kinds = [
        Kind::Count,
        Kind::First,
        Kind::Map,
        Kind::Letter,
        Kind::Face,
        Kind::Exit,
        Kind::Exit,
        Kind::Ends,
        Kind::Ends,
        Kind::End,
        Kind::End,
    ];
    let kind = rng.pick(&kinds);
    let places: Vec<usize> = fields.iter().filter(|field| field.1 == kind).map(|field| field.0).collect();
    if places.is_empty() {
        return;
    }
    let place = rng.pick(&places);
    let count = u16::from(bytes[1]);
    let wide = match kind {
        Kind::Count => rng.pick(&[0u16, count - 1, count + 1, 200, 201, 256, 65_535]),
        Kind::First | Kind::Face => rng.pick(&[0u16, count - 1, count, 200, 256, 65_535]),
        Kind::Map => {
            let map = u16::from(bytes[place]) * 256 + u16::from(bytes[place + 1]);
            let bit = 1u16 << rng.below(16);
            map ^ rng.pick(&[bit, 4_096, 32_768, 2, 4, 8, 16])
        }
        Kind::End => rng.pick(&[0u16, 9_998, 9_999, 10_000, 10_001, 32_768, 65_535]),
        Kind::Letter => u16::from(rng.pick(b"BDRWSACEQTVXbdrws\0")),
        Kind::Exit => rng.pick(&[0u16, 1, 63, 64, 65, 127, 128, 255]),
        Kind::Ends => rng.below(20) as u16,
    };
    if matches!(kind, Kind::Letter | Kind::Exit | Kind::Ends) {
        bytes[place] = wide as u8;
    } else {
        bytes[place..place + 2].copy_from_slice(&wide.to_be_bytes());
    }
}

/// Waits and other steps up to a file of 60,000 bytes, or one more.
fn lengthen(rng: &mut Prng, file: &mut Vec<u8>) {
    let wait = [b'w', 0, 0, 0, 0];
    while file.len() + 5 <= 60_000 {
        file.extend_from_slice(&wait);
    }
    if rng.chance(30) {
        let size = rng.pick(&[60_000usize, 60_001]);
        file.resize(size, b'w');
    }
}

pub fn task(rng: &mut Prng) -> Task {
    let mut plan = shape(rng);
    dress(rng, &mut plan);

    let length = if rng.chance(90) { rng.below(14) } else { rng.below(120) };
    let walked = simulate(rng, &plan, length);
    let mut end = None;
    let (mut scale, mut told) = (1 + rng.below(4), Vec::new());
    if let Some((simulated, steps, cell)) = walked {
        scale = simulated;
        told = steps;
        end = Some(cell);
    }
    let lodged = rng.chance(92);
    let mut entries = cover(rng, &plan, lodged);

    // final cells: none, where the trail ends, where the cover is not, anywhere
    let idle = idle_cells(&plan);
    let covered: BTreeSet<usize> = entries.iter().map(|entry| entry.cell).collect();
    let bare: Vec<usize> = idle.iter().copied().filter(|cell| !covered.contains(cell)).collect();
    match rng.below(100) {
        0..=24 => {}
        25..=54 => {
            if let Some(cell) = end.filter(|cell| plan.cells[*cell].events.is_empty()) {
                plan.cells[cell].last = true;
            }
        }
        55..=84 => bare.iter().for_each(|cell| plan.cells[*cell].last = true),
        _ => {
            let cell = rng.pick(&idle);
            plan.cells[cell].last = true;
        }
    }

    let whole = plan.clone();
    if rng.chance(8) {
        for _ in 0..1 + rng.below(2) {
            break_rule(rng, &mut plan);
        }
    }
    if rng.chance(32) {
        for _ in 0..1 + rng.below(2) {
            perturb_cover(rng, &whole, &mut entries);
        }
    }
    if rng.chance(30) {
        for _ in 0..1 + rng.below(2) {
            perturb_trail(rng, &whole, &mut scale, &mut told);
        }
    }
    let mut task = Task {
        model: Some(write_model(&plan)),
        cover: if entries.is_empty() && rng.chance(60) { None } else { Some(write_cover(&entries)) },
        trail: if rng.chance(25) { None } else { Some(write_trail(scale, &told)) },
    };
    if let Some(trail) = task.trail.as_mut().filter(|_| rng.chance(1)) {
        lengthen(rng, trail);
    }
    match rng.below(100) {
        0..=3 => damage(rng, &mut task.model),
        4..=6 => misuse(rng, task.model.as_mut().unwrap()),
        7..=12 => damage(rng, &mut task.cover),
        13..=18 => damage(rng, &mut task.trail),
        19 => {
            damage(rng, &mut task.model);
            damage(rng, &mut task.cover);
            damage(rng, &mut task.trail);
        }
        _ => {}
    }
    task
}
