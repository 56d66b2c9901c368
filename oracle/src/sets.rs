//! Clock sets (docs/clocksets.md, zones): a sorted map with the limits that are there. Nothing is packed, and closing is plain
//! relaxation: whatever changed is combined with everything again, until nothing changes.

use crate::bytes::Slip;
use crate::check;
use std::collections::{BTreeMap, BTreeSet, VecDeque};

/// "Below c" or "at most c". The derived order is the order of tightness.
#[derive(Clone, Copy, Debug, PartialEq, Eq, PartialOrd, Ord)]
pub struct Limit {
    pub units: i64,
    pub at_most: bool,
}

pub const AT_MOST_ZERO: Limit = Limit { units: 0, at_most: true };

impl Limit {
    pub fn plus(self, other: Limit) -> Limit {
        Limit { units: self.units + other.units, at_most: self.at_most && other.at_most }
    }

    pub fn allows(self, difference: i64, scale: i64) -> bool {
        if self.at_most {
            difference <= self.units * scale
        } else {
            difference < self.units * scale
        }
    }
}

/// A gap as a caller may write it, good or bad.
#[derive(Clone, Copy, Debug, PartialEq, Eq)]
pub struct Gap {
    pub first: usize,
    pub second: usize,
    pub units: i64,
    pub at_most: bool,
}

pub type Limits = BTreeMap<(usize, usize), Limit>;

/// Closed limits on count i minus count j; a pair that is missing has none. `None` is the empty set.
#[derive(Clone, Debug, PartialEq, Eq)]
pub struct Set {
    pub limits: Option<Limits>,
}

pub const LARGEST_BOUND: i64 = 4_000_000;
pub const LARGEST_CONSTANT: i64 = 9_999;

fn pairs() -> impl Iterator<Item = (usize, usize)> {
    (0..7).flat_map(|i| (0..7).map(move |j| (i, j))).filter(|(i, j)| i != j)
}

impl Set {
    /// Every reading: counts are not negative.
    pub fn all() -> Set {
        Set { limits: Some((1..=6).map(|clock| ((0, clock), AT_MOST_ZERO)).collect()) }
    }

    pub fn zero() -> Set {
        Set { limits: Some(pairs().map(|pair| (pair, AT_MOST_ZERO)).collect()) }
    }

    pub fn is_empty(&self) -> bool {
        self.limits.is_none()
    }

    /// 16, if a bound of a set that holds something is too large.
    fn sized(self) -> Result<Set, Slip> {
        assert!(!check::wanted() || check::closed(&self), "not closed: {self:?}");
        let large = |limit: &Limit| limit.units.abs() > LARGEST_BOUND;
        if self.limits.iter().flat_map(|limits| limits.values()).any(large) {
            return Err(Slip::new(16, 0));
        }
        Ok(self)
    }

    pub fn gap(&self, gap: &Gap) -> Result<Set, Slip> {
        if gap.first > 6 || gap.second > 6 || gap.first == gap.second || gap.units.abs() > LARGEST_CONSTANT {
            return Err(Slip::new(11, 0));
        }
        let limit = Limit { units: gap.units, at_most: gap.at_most };
        let after = self.cut(gap.first, gap.second, limit);
        if check::wanted() {
            check::cut(self, gap.first, gap.second, limit, &after);
        }
        after.sized()
    }

    /// One more limit, with whatever follows from it.
    pub fn cut(&self, first: usize, second: usize, limit: Limit) -> Set {
        let Some(mut limits) = self.limits.clone() else {
            return self.clone();
        };
        if limits.get(&(first, second)).is_some_and(|present| *present <= limit) {
            return self.clone();
        }
        limits.insert((first, second), limit);
        let mut changed = VecDeque::from([(first, second)]);
        while let Some((i, j)) = changed.pop_front() {
            let here = limits[&(i, j)];
            for k in 0..7 {
                let before = limits.get(&(k, i)).map(|way| ((k, j), way.plus(here)));
                let behind = limits.get(&(j, k)).map(|way| ((i, k), here.plus(*way)));
                for (pair, sum) in before.into_iter().chain(behind) {
                    if pair.0 == pair.1 {
                        if sum < AT_MOST_ZERO {
                            return Set { limits: None };
                        }
                    } else if limits.get(&pair).is_none_or(|present| sum < *present) {
                        limits.insert(pair, sum);
                        changed.push_back(pair);
                    }
                }
            }
        }
        Set { limits: Some(limits) }
    }

    pub fn reset(&self, clocks: &BTreeSet<usize>) -> Result<Set, Slip> {
        if clocks.iter().any(|clock| !(1..=6).contains(clock)) {
            return Err(Slip::new(11, 0));
        }
        // A clock that is reset stands where clock 0 stands.
        let stand = |clock: usize| if clocks.contains(&clock) { 0 } else { clock };
        let limits = self.limits.as_ref().map(|limits| {
            let moved = |(i, j): (usize, usize)| {
                if stand(i) == stand(j) {
                    Some(((i, j), AT_MOST_ZERO))
                } else {
                    limits.get(&(stand(i), stand(j))).map(|limit| ((i, j), *limit))
                }
            };
            pairs().filter_map(moved).collect::<Limits>()
        });
        let after = Set { limits };
        if check::wanted() {
            check::reset(self, clocks, &after);
        }
        after.sized()
    }

    /// Nothing above holds a clock any more; differences and low ends stay.
    pub fn delay(&self) -> Result<Set, Slip> {
        let keep = |limits: &Limits| limits.iter().filter(|((_, j), _)| *j != 0).map(|(p, l)| (*p, *l)).collect::<Limits>();
        let after = Set { limits: self.limits.as_ref().map(keep) };
        if check::wanted() {
            check::delay(self, &after);
        }
        after.sized()
    }

    pub fn within(&self, other: &Set) -> bool {
        let answer = match (&self.limits, &other.limits) {
            (None, _) => true,
            (Some(_), None) => false,
            (Some(mine), Some(theirs)) => theirs.iter().all(|(pair, limit)| mine.get(pair).is_some_and(|own| own <= limit)),
        };
        if check::wanted() {
            check::within(self, other, answer);
        }
        answer
    }

    /// Whether a reading (clock 1 first) belongs at a scale.
    pub fn holds(&self, reading: &[i64; 6], scale: i64) -> bool {
        let count = |clock: usize| if clock == 0 { 0 } else { reading[clock - 1] };
        let obeys = |limits: &Limits| limits.iter().all(|((i, j), limit)| limit.allows(count(*i) - count(*j), scale));
        reading.iter().all(|count| *count >= 0) && self.limits.as_ref().is_some_and(obeys)
    }
}
