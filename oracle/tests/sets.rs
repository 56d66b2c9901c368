//! Random calls on sets: each looked at reading by reading, and beside the flat zones.

use oracle::check;
use oracle::fast::{Cut, Zone, NONE};
use oracle::prng::Prng;
use oracle::sets::{Gap, Limit, Set};
use std::collections::BTreeSet;

fn same(set: &Set, zone: &Zone) {
    assert_eq!(set.is_empty(), zone.empty);
    let Some(limits) = &set.limits else { return };
    for i in 0..7 {
        for j in (0..7).filter(|j| *j != i) {
            let bound = zone.bounds[7 * i + j];
            let flat = (bound != NONE).then_some(Limit { units: i64::from(bound >> 1), at_most: bound & 1 == 1 });
            assert_eq!(limits.get(&(i, j)).copied(), flat, "bound {i} {j}");
        }
    }
}

#[test]
fn random_calls() {
    let mut rng = Prng::new(3);
    for _ in 0..40 {
        let begin = rng.chance(50);
        let (mut set, mut zone) = if begin { (Set::all(), Zone::all()) } else { (Set::zero(), Zone::zero()) };
        let mut earlier = vec![(set.clone(), zone)];
        for _ in 0..8 {
            let after = match rng.below(6) {
                0 => {
                    zone.delay();
                    let after = set.delay().unwrap();
                    check::delay(&set, &after);
                    after
                }
                1 => {
                    let mask = rng.below(64) as u8;
                    let clocks: BTreeSet<usize> = (1..=6).filter(|clock| mask >> (clock - 1) & 1 == 1).collect();
                    zone.reset(mask);
                    let after = set.reset(&clocks).unwrap();
                    check::reset(&set, &clocks, &after);
                    after
                }
                _ => {
                    let first = rng.below(7);
                    let second = (first + 1 + rng.below(6)) % 7;
                    let gap = Gap { first, second, units: rng.between(-2, 3), at_most: rng.chance(50) };
                    assert!(zone.cut(Cut { first, second, bound: 2 * gap.units as i32 + i32::from(gap.at_most) }));
                    let after = set.gap(&gap).unwrap();
                    check::cut(&set, first, second, Limit { units: gap.units, at_most: gap.at_most }, &after);
                    after
                }
            };
            assert!(check::closed(&after));
            same(&after, &zone);
            for (other, flat) in &earlier {
                for (a, b, fa, fb) in [(&after, other, &zone, flat), (other, &after, flat, &zone)] {
                    let answer = a.within(b);
                    assert_eq!(answer, fa.within(fb));
                    check::within(a, b, answer);
                }
            }
            set = after;
            earlier.push((set.clone(), zone));
        }
    }
}
