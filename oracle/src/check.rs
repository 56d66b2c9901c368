//! Sets looked at reading by reading. Switched on by the environment variable `ORACLE_CHECK`; anything wrong is a panic.
//!
//! A claim that something is there is checked by a witness, which is built clock by clock and then tested against every limit. A claim
//! that nothing is there (an empty set, an inclusion) is checked with all readings of a small box at the scales 1 to 3.

use crate::sets::{Limit, Set, AT_MOST_ZERO};
use std::collections::BTreeSet;
use std::sync::atomic::{AtomicUsize, Ordering};
use std::sync::OnceLock;

/// `ORACLE_CHECK=1` checks every call, `ORACLE_CHECK=n` every n-th.
pub fn wanted() -> bool {
    static EVERY: OnceLock<usize> = OnceLock::new();
    static CALLS: AtomicUsize = AtomicUsize::new(0);
    let wish = || std::env::var("ORACLE_CHECK").map_or(0, |value| value.parse().unwrap_or(1));
    let every = *EVERY.get_or_init(wish);
    every > 0 && CALLS.fetch_add(1, Ordering::Relaxed) % every == 0
}

/// Every reading of a small box. Three clocks (those that the pair names first) go over all counts up to two units and one tick, the others are at zero
/// or at one unit.
fn small(pair: (usize, usize), scale: i64) -> Vec<[i64; 6]> {
    let mut free: Vec<usize> = [pair.0, pair.1].into_iter().filter(|clock| *clock > 0).collect();
    free.extend((1..=6).filter(|clock| *clock != pair.0 && *clock != pair.1));
    free.truncate(3);
    let mut readings = vec![[0i64; 6]];
    for clock in 1..=6usize {
        let counts: Vec<i64> = if free.contains(&clock) { (0..=2 * scale + 1).collect() } else { vec![0, scale] };
        readings = readings
            .into_iter()
            .flat_map(|reading| {
                counts.iter().map(move |count| {
                    let mut longer = reading;
                    longer[clock - 1] = *count;
                    longer
                })
            })
            .collect();
    }
    readings
}

/// A reading of a nonempty closed set, at the scale that it needed: each further clock is put between its limits at twice the scale.
pub fn witness(set: &Set) -> Option<([i64; 6], i64)> {
    let limits = set.limits.as_ref()?;
    let mut scale = 1i64;
    let mut reading = [0i64; 6];
    for clock in 1..=6usize {
        scale *= 2;
        reading.iter_mut().for_each(|count| *count *= 2);
        let at = |other: usize| if other == 0 { 0 } else { reading[other - 1] };
        // twice the scale makes room for one tick between two strict limits
        let low = (0..clock)
            .filter_map(|other| limits.get(&(other, clock)).map(|l| at(other) - l.units * scale + i64::from(!l.at_most)))
            .max()
            .expect("a count has a least value");
        let high =
            (0..clock).filter_map(|other| limits.get(&(clock, other)).map(|l| at(other) + l.units * scale - i64::from(!l.at_most))).min();
        assert!(high.is_none_or(|high| low <= high), "no room for clock {clock} in {set:?}");
        reading[clock - 1] = low;
    }
    Some((reading, scale))
}

fn must_have(set: &Set) {
    let (reading, scale) = witness(set).expect("a reading of a set that is not empty");
    assert!(set.holds(&reading, scale), "witness {reading:?} at {scale} is not in {set:?}");
}

pub fn cut(before: &Set, first: usize, second: usize, limit: Limit, after: &Set) {
    for scale in 1..=3 {
        for reading in small((first, second), scale) {
            let count = |clock: usize| if clock == 0 { 0 } else { reading[clock - 1] };
            let kept = before.holds(&reading, scale) && limit.allows(count(first) - count(second), scale);
            assert_eq!(kept, after.holds(&reading, scale), "cut {first} {second} {limit:?} of {before:?}: {reading:?} at {scale}");
        }
    }
    if !after.is_empty() {
        must_have(after);
        let (reading, scale) = witness(after).unwrap();
        let count = |clock: usize| if clock == 0 { 0 } else { reading[clock - 1] };
        assert!(before.holds(&reading, scale) && limit.allows(count(first) - count(second), scale));
    }
}

fn equal(set: &Set, first: usize, second: usize, units: i64) -> Set {
    set.cut(first, second, Limit { units, at_most: true }).cut(second, first, Limit { units: -units, at_most: true })
}

pub fn reset(before: &Set, clocks: &BTreeSet<usize>, after: &Set) {
    assert_eq!(before.is_empty(), after.is_empty());
    for scale in 1..=2 {
        for reading in small((1, 2), scale) {
            if before.holds(&reading, scale) {
                let mut later = reading;
                clocks.iter().for_each(|clock| later[clock - 1] = 0);
                assert!(after.holds(&later, scale), "reset {clocks:?} of {before:?} loses {reading:?}");
            }
            if scale == 1 && after.holds(&reading, 1) {
                assert!(clocks.iter().all(|clock| reading[clock - 1] == 0));
                let kept = (1..=6usize).filter(|clock| !clocks.contains(clock));
                let source = kept.fold(before.clone(), |set, clock| equal(&set, clock, 0, reading[clock - 1]));
                assert!(!source.is_empty(), "reset {clocks:?} of {before:?} invents {reading:?}");
            }
        }
    }
    if !after.is_empty() {
        must_have(after);
    }
}

pub fn delay(before: &Set, after: &Set) {
    assert_eq!(before.is_empty(), after.is_empty());
    for scale in 1..=2 {
        for reading in small((1, 2), scale) {
            if before.holds(&reading, scale) {
                for ticks in [0, 1, 2, 1_000_000] {
                    assert!(after.holds(&reading.map(|count| count + ticks), scale), "delay of {before:?} loses {reading:?}");
                }
            }
            if scale == 1 && after.holds(&reading, 1) {
                let source = (2..=6usize).fold(before.clone(), |set, clock| equal(&set, clock, 1, reading[clock - 1] - reading[0]));
                let source = source.cut(1, 0, Limit { units: reading[0], at_most: true });
                assert!(!source.is_empty(), "delay of {before:?} invents {reading:?}");
            }
        }
    }
    if !after.is_empty() {
        must_have(after);
    }
}

pub fn within(set: &Set, other: &Set, answer: bool) {
    if answer {
        for scale in 1..=2 {
            for reading in small((1, 2), scale) {
                assert!(!set.holds(&reading, scale) || other.holds(&reading, scale), "{reading:?} of {set:?} is not in {other:?}");
            }
        }
        if let Some((reading, scale)) = witness(set) {
            assert!(other.holds(&reading, scale));
        }
        return;
    }
    // Some limit of the other is passed by some reading of this one.
    must_have(set);
    let Some(limits) = &other.limits else { return };
    let outside = limits.iter().any(|((i, j), limit)| {
        let passed = set.cut(*j, *i, Limit { units: -limit.units, at_most: !limit.at_most });
        witness(&passed).is_some_and(|(reading, scale)| set.holds(&reading, scale) && !other.holds(&reading, scale))
    });
    assert!(outside, "{set:?} is in {other:?}");
}

/// The limits are as tight as each other makes them, and say nothing against themselves.
pub fn closed(set: &Set) -> bool {
    let Some(limits) = &set.limits else { return true };
    limits.iter().all(|((i, j), left)| {
        limits.iter().filter(|((k, _), _)| k == j).all(|((_, l), right)| {
            let sum = left.plus(*right);
            if i == l {
                sum >= AT_MOST_ZERO
            } else {
                limits.get(&(*i, *l)).is_some_and(|direct| *direct <= sum)
            }
        })
    })
}
