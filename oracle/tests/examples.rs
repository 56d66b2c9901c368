//! The example of the documents and its variants: what must be printed is written out here.

use oracle::bytes::{parse_cover, parse_model, parse_trail, write_cover, write_model, write_trail, Slip, Told, Written};
use oracle::fast::fast_text;
use oracle::plan::{Cell, End, Event, Plan, Step};
use oracle::report::{judge_text, tenths, walk_text, Files};
use oracle::sets::{Gap, Set};
use std::collections::BTreeSet;

/// The bytes of docs/files.md.
const MODEL: &[u8] = &[
    0x00, 0x03, 0x00, 0x00, // three cells, cell 0 is the first
    0x00, 0x20, 0x01, // cell 0: an exit set, clock 1
    0x00, 0x41, 0x42, 0x00, 0x00, 0x00, 0x02, 0x04, 0x00, 0x04, // cell 1
    0x00, 0x50, 0x01, 0x00, 0x02, // cell 2
];
const TRAIL: &[u8] = b"\x00\x02\x73\x00\x01\x01\x77\x00\x00\x00\x05\x66\x01";

fn judged(model: &[u8], cover: Option<&[u8]>, trail: Option<&[u8]>) -> String {
    let files = Files { model: Some(model), cover, trail };
    let text = judge_text(&files);
    assert_eq!(fast_text(&files), text);
    text
}

fn walked(model: Option<&[u8]>, trail: Option<&[u8]>) -> String {
    walk_text(&Files { model, cover: None, trail })
}

fn at_most(clock: usize, units: i64) -> Gap {
    Gap { first: clock, second: 0, units, at_most: true }
}

fn closed(units: i64) -> End {
    End { units, open: false }
}

/// Cell 0 with everything, cell 1 with clock 1 at most 1.
fn small_cover() -> Vec<u8> {
    write_cover(&[Written { cell: 0, gaps: vec![] }, Written { cell: 1, gaps: vec![at_most(1, 1)] }])
}

#[test]
fn three_cells_reached() {
    let text = "cells 3\nentries 0 duties 1 open 1\ntrail cell 2 elapsed 2.5\nverdict reached\n";
    assert_eq!(judged(MODEL, None, Some(TRAIL)), text);
}

#[test]
fn three_cells_walked() {
    let text = "cells 3\n\
        start cell 1 event 1: cell 1 counts 0 0 0 0 0 0 elapsed 0\n\
        wait 5: cell 1 counts 5 5 5 5 5 5 elapsed 5\n\
        finish event 1: cell 2 counts 5 5 5 5 5 5 elapsed 5\n\
        trail cell 2 elapsed 2.5\n";
    assert_eq!(walked(Some(MODEL), Some(TRAIL)), text);
    assert_eq!(walked(Some(MODEL), None), "cells 3\ntrail none\n");
    assert_eq!(walked(None, None), "refused 1 layer 1 place 0\n");
}

#[test]
fn lower_high_end_is_shut() {
    let mut plan = parse_model(MODEL).unwrap();
    plan.cells[1].high.insert(1, closed(1));
    let text = "cells 3\nentries 2 duties 5 open 0\ntrail none\nverdict shut\n";
    assert_eq!(judged(&write_model(&plan), Some(&small_cover()), None), text);
}

#[test]
fn cover_too_small_is_undecided() {
    let text = "cells 3\nentries 2 duties 5 open 1\ntrail none\nverdict undecided\n";
    assert_eq!(judged(MODEL, Some(&small_cover()), None), text);
}

#[test]
fn two_clocks_stay_equal() {
    let mut plan = Plan { first: 0, cells: vec![Cell::default(); 3] };
    plan.cells[0].exit = BTreeSet::from([1, 2]);
    plan.cells[1].events = vec![Event { letter: b'R', lower: 0, upper: 2 }];
    plan.cells[2].last = true;
    plan.cells[2].low.insert(1, closed(5));
    plan.cells[2].high.insert(2, closed(3));
    let equal = [(1, 2), (2, 1)].map(|(first, second)| Gap { first, second, units: 0, at_most: true });
    let cover = write_cover(&[Written { cell: 0, gaps: vec![] }, Written { cell: 1, gaps: equal.to_vec() }]);
    let text = "cells 3\nentries 2 duties 5 open 0\ntrail none\nverdict shut\n";
    assert_eq!(judged(&write_model(&plan), Some(&cover), None), text);
    // without the equality the finish is not empty
    let loose = write_cover(&[Written { cell: 0, gaps: vec![] }, Written { cell: 1, gaps: vec![] }]);
    let text = "cells 3\nentries 2 duties 5 open 1\ntrail none\nverdict undecided\n";
    assert_eq!(judged(&write_model(&plan), Some(&loose), None), text);
}

#[test]
fn no_opening_is_shut() {
    let mut plan = Plan { first: 0, cells: vec![Cell::default()] };
    plan.cells[0].low.insert(1, closed(1));
    let model = write_model(&plan);
    assert_eq!(judged(&model, None, None), "cells 1\nentries 0 duties 1 open 0\ntrail none\nverdict shut\n");
    let trail = write_trail(1, &[]);
    assert_eq!(judged(&model, None, Some(&trail)), "cells 1\nentries 0 duties 1 open 0\nrefused 22 layer 4 place 0\n");
}

#[test]
fn entry_on_a_final_cell_is_not_shut() {
    let mut plan = Plan { first: 0, cells: vec![Cell::default()] };
    plan.cells[0].last = true;
    let cover = write_cover(&[Written { cell: 0, gaps: vec![] }]);
    let text = "cells 1\nentries 1 duties 2 open 0\ntrail none\nverdict undecided\n";
    assert_eq!(judged(&write_model(&plan), Some(&cover), None), text);
}

#[test]
fn rounding() {
    assert_eq!(tenths(1, 4), "0.3");
    assert_eq!(tenths(5, 2), "2.5");
    assert_eq!(tenths(1, 20), "0.1");
    assert_eq!(tenths(49, 1_000), "0.0");
    assert_eq!(tenths(999, 1_000), "1.0");
    assert_eq!(tenths(1_000_000_000, 1), "1000000000.0");
}

#[test]
fn words_of_gaps() {
    let cover = [0, 1, 0, 0, 4, 1, 2, 0, 3, 1, 2, 0, 2, 1, 2, 0xff, 0xff, 1, 2, 0xff, 0xfe];
    let gaps: Vec<(i64, bool)> = parse_cover(&cover).unwrap()[0].gaps.iter().map(|gap| (gap.units, gap.at_most)).collect();
    assert_eq!(gaps, [(1, true), (1, false), (-1, true), (-1, false)]);
}

#[test]
fn faults_of_model_files() {
    let refused = |bytes: &[u8]| parse_model(bytes).unwrap_err();
    assert_eq!(refused(&[]), Slip::new(1, 0));
    assert_eq!(refused(&[0]), Slip::new(1, 0));
    assert_eq!(refused(&[0, 0]), Slip::new(2, 0));
    assert_eq!(refused(&[0, 201]), Slip::new(2, 0));
    assert_eq!(refused(&[0, 1, 0]), Slip::new(1, 2));
    assert_eq!(refused(&[0, 1, 0, 0]), Slip::new(1, 4));
    assert_eq!(refused(&[0, 1, 0, 0, 0, 2]), Slip::new(3, 4));
    assert_eq!(refused(&[0, 1, 0, 0, 0x10, 0]), Slip::new(3, 4));
    assert_eq!(refused(&[0, 1, 0, 0, 0, 1, b'A']), Slip::new(4, 6));
    assert_eq!(refused(&[0, 1, 0, 0, 0, 1, b'B', 0]), Slip::new(1, 7));
    assert_eq!(refused(&[0, 1, 0, 0, 0, 0x20, 64]), Slip::new(4, 6));
    assert_eq!(refused(&[0, 1, 0, 0, 0, 0x20, 0]), Slip::new(4, 6));
    assert_eq!(refused(&[0, 1, 0, 0, 0, 0x40, 0]), Slip::new(3, 6));
    assert_eq!(refused(&[0, 1, 0, 0, 0, 0x40, 2]), Slip::new(3, 6));
    assert_eq!(refused(&[0, 1, 0, 0, 0, 0x40, 0x11]), Slip::new(3, 6));
    assert_eq!(refused(&[0, 1, 0, 0, 0, 0x40, 5, 0, 1, 0x27, 0x10]), Slip::new(4, 9));
    assert_eq!(refused(&[MODEL, &[0]].concat()), Slip::new(5, 22));
    assert_eq!(refused(&[0; 60_001]), Slip::new(5, 60_000));
    assert_eq!(refused(&[0; 60_000]), Slip::new(2, 0));
    let plan = parse_model(MODEL).unwrap();
    assert_eq!(write_model(&plan), MODEL);
}

#[test]
fn faults_of_other_files() {
    assert_eq!(parse_trail(&[]).unwrap_err(), Slip::new(1, 0));
    assert_eq!(parse_trail(&[0, 1, b'x']).unwrap_err(), Slip::new(4, 2));
    assert_eq!(parse_trail(&[0, 1, b's', 0, 0]).unwrap_err(), Slip::new(1, 5));
    assert_eq!(parse_trail(TRAIL).unwrap(), (2, vec![Told::Start(1, 1), Told::Wait(5), Told::Finish(1)]));
    assert_eq!(parse_cover(&[1, 1]).unwrap_err(), Slip::new(2, 0));
    assert_eq!(parse_cover(&[0, 0, 0]).unwrap_err(), Slip::new(5, 2));
    assert_eq!(parse_cover(&[0, 1, 0, 0, 1, 1]).unwrap_err(), Slip::new(1, 6));
}

#[test]
fn rules() {
    let refused = |plan: &Plan| plan.clone().accept().unwrap_err();
    let good = parse_model(MODEL).unwrap();
    assert!(good.clone().accept().is_ok());
    assert_eq!(good.steps_out(0), [Step::Wait, Step::Start(1, 1)]);
    assert_eq!(good.steps_out(1), [Step::Wait, Step::Finish(1)]);
    let mut plan = good.clone();
    plan.first = 3;
    assert_eq!(refused(&plan), Slip::new(6, 3));
    plan = good.clone();
    plan.cells[1].events[0].upper = 3;
    assert_eq!(refused(&plan), Slip::new(6, 1));
    plan = good.clone();
    plan.cells[1].events[0].upper = 1;
    assert_eq!(refused(&plan), Slip::new(7, 1));
    plan = good.clone();
    plan.first = 1;
    assert_eq!(refused(&plan), Slip::new(9, 1));
    plan = good.clone();
    plan.cells[1].last = true;
    assert_eq!(refused(&plan), Slip::new(9, 1));
    // wait and fifteen starts are sixteen steps
    plan = good.clone();
    while plan.cells.len() < 3 + 14 {
        plan.cells.push(good.cells[1].clone());
    }
    assert!(plan.clone().accept().is_ok());
    plan.cells.push(good.cells[1].clone());
    assert_eq!(refused(&plan), Slip::new(10, 0));
    // a square over two vertices whose lower and upper faces do not meet
    let edge = |lower, upper| Cell { events: vec![Event { letter: b'B', lower, upper }], ..Cell::default() };
    let mut square = Plan { first: 0, cells: vec![Cell::default(), Cell::default(), edge(0, 0), edge(1, 1)] };
    let side = |lower, upper| Event { letter: b'B', lower, upper };
    square.cells.push(Cell { events: vec![side(2, 2), side(2, 2)], ..Cell::default() });
    assert!(square.clone().accept().is_ok());
    square.cells[4].events[1].upper = 3;
    assert_eq!(refused(&square), Slip::new(8, 4));
}

#[test]
fn refusals_of_trails() {
    let told = |scale: usize, steps: &[Told]| {
        let text = walked(Some(MODEL), Some(&write_trail(scale, steps)));
        text.lines().last().unwrap().to_string()
    };
    assert_eq!(told(0, &[]), "refused 18 layer 4 place 0");
    assert_eq!(told(1_001, &[]), "refused 18 layer 4 place 0");
    assert_eq!(told(1, &[Told::Start(3, 1)]), "refused 13 layer 4 place 0");
    assert_eq!(told(1, &[Told::Start(1, 2)]), "refused 13 layer 4 place 0");
    assert_eq!(told(1, &[Told::Start(1, 0)]), "refused 13 layer 4 place 0");
    assert_eq!(told(1, &[Told::Start(1, 1), Told::Start(1, 1)]), "refused 20 layer 4 place 1");
    assert_eq!(told(1, &[Told::Finish(1)]), "refused 20 layer 4 place 0");
    assert_eq!(told(1, &[Told::Wait(1_000_000_001)]), "refused 21 layer 4 place 0");
    assert_eq!(told(1, &[Told::Wait(1_000_000_000), Told::Wait(0)]), "trail cell 0 elapsed 1000000000.0");
    assert_eq!(told(1, &[Told::Wait(1_000_000_000), Told::Start(1, 1), Told::Wait(1)]), "refused 21 layer 4 place 1");
    assert_eq!(told(1, &[Told::Start(1, 1), Told::Wait(5)]), "refused 22 layer 4 place 1");
    assert_eq!(told(1, &[Told::Start(1, 1), Told::Wait(1), Told::Finish(1)]), "refused 22 layer 4 place 1");
}

#[test]
fn refusals_of_covers() {
    let last = |entries: &[Written]| {
        let text = judged(MODEL, Some(&write_cover(entries)), None);
        text.lines().last().unwrap().to_string()
    };
    let entry = |cell, gaps: &[Gap]| Written { cell, gaps: gaps.to_vec() };
    let gap = |first, second, units| Gap { first, second, units, at_most: true };
    assert_eq!(last(&[entry(3, &[])]), "refused 13 layer 4 place 0");
    assert_eq!(last(&[entry(0, &[]), entry(0, &[gap(1, 0, -1)])]), "refused 14 layer 4 place 1");
    assert_eq!(last(&[entry(3, &[gap(1, 7, 0)])]), "refused 11 layer 3 place 0");
    assert_eq!(last(&[entry(0, &[gap(1, 1, 0)])]), "refused 11 layer 3 place 0");
    assert_eq!(last(&[entry(0, &[gap(1, 0, 10_000)])]), "refused 11 layer 3 place 0");
    assert_eq!(last(&[entry(0, &[gap(1, 0, -1), gap(1, 0, -10_000)])]), "refused 11 layer 3 place 0");
    assert_eq!(last(&[entry(0, &[gap(1, 0, 9_999)])]), "verdict undecided");
}

#[test]
fn sets_between_the_units() {
    let gap = |first, second, units, at_most| Gap { first, second, units, at_most };
    let above = Set::all().gap(&gap(0, 1, 0, false)).unwrap();
    let between = above.gap(&gap(1, 0, 1, false)).unwrap();
    assert!(!between.is_empty());
    assert!(between.holds(&[1, 0, 0, 0, 0, 0], 2));
    assert!(!between.holds(&[1, 0, 0, 0, 0, 0], 1));
    assert!(above.gap(&gap(0, 1, -1, true)).unwrap().gap(&gap(1, 0, 1, false)).unwrap().is_empty());
    assert!(between.within(&above));
    assert!(!above.within(&between));
}

/// Many calls in a row, far beyond what files can say: the bounds pass 4,000,000 and the call is refused.
#[test]
fn bounds_too_large() {
    // clock 1 is let run and held back in turn with clock 2, so that it gains 9,999 on clock 0 each time
    let mut set = Set::zero();
    let mut calls = 0;
    let refused = loop {
        let next = set
            .reset(&BTreeSet::from([2]))
            .and_then(|set| set.delay())
            .and_then(|set| set.gap(&Gap { first: 0, second: 2, units: -9_999, at_most: true }))
            .and_then(|set| set.gap(&Gap { first: 2, second: 0, units: 9_999, at_most: true }));
        calls += 1;
        match next {
            Ok(next) => set = next,
            Err(slip) => break slip,
        }
    };
    assert_eq!(refused, Slip::new(16, 0));
    assert_eq!(calls, 4_000_000 / 9_999 + 1);
}
