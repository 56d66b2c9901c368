//! compare-sets [CASES [SEED]]: random sequences of calls, and random closings, by the proved sets and by the sets of the second judge. After every
//! call the answers, the refusals and all 49 bounds have to agree. At the first difference the whole case is printed, and the status is 1.

use kinds_bench::{close, OrderCodes, Stored, Zone, CLOSED, NOT_49, NO_CLOSED_FORM, TOO_LARGE};
use oracle::bytes::Slip;
use oracle::prng::Prng;
use oracle::sets::{Gap, Limit, Limits, Set, AT_MOST_ZERO, LARGEST_BOUND, LARGEST_CONSTANT};
use std::collections::{BTreeMap, BTreeSet};
use std::process::exit;
use std::time::Instant;

/// What came how often.
type Tally = BTreeMap<(&'static str, &'static str, String), u64>;

/// The number that no bound is stored as.
const NO_BOUND: i32 = i32::MAX;

/// What a stored number means: twice the constant, plus one for "at most". The second is whether the constant is small enough to be a bound.
fn told_by(number: i32) -> Option<(Limit, bool)> {
    let limit = Limit { units: i64::from(number).div_euclid(2), at_most: number.rem_euclid(2) == 1 };
    (number != NO_BOUND).then_some((limit, limit.units.abs() <= LARGEST_BOUND))
}

fn number_of(limit: Option<&Limit>) -> i32 {
    limit.map_or(NO_BOUND, |limit| i32::try_from(2 * limit.units + i64::from(limit.at_most)).expect("a bound of 32 bits"))
}

/// The second judge's set of a list of limits, cut one by one.
fn cut_all(start: Set, limits: impl Iterator<Item = ((usize, usize), Limit)>) -> Set {
    limits.fold(start, |set, ((i, j), limit)| {
        if i != j {
            set.cut(i, j, limit)
        } else if limit < AT_MOST_ZERO {
            Set { limits: None }
        } else {
            set
        }
    })
}

fn place(p: usize) -> (usize, usize) {
    (p / 7, p % 7)
}

/// A kind of set on both sides.
trait Kind: Stored {
    const NAME: &'static str;
    fn random(rng: &mut Prng) -> Self;
    /// The second judge's set of the same readings, from the stored numbers as the documents explain them.
    fn explained(&self) -> Set;
    /// How a set of the second judge has to be stored.
    fn form(set: &Set) -> Self;
    fn gap_of(set: &Set, gap: &Gap) -> Result<Set, Slip>;
    /// Strict, nonstrict and no bounds between different clocks.
    fn bounds(&self) -> [u64; 3];
}

impl Kind for Zone {
    const NAME: &'static str = "zone";

    fn random(rng: &mut Prng) -> Zone {
        Zone { bounds: random_bounds(rng) }
    }

    fn explained(&self) -> Set {
        let small = self.bounds.iter().enumerate().filter_map(|(p, number)| match told_by(*number) {
            Some((limit, true)) => Some((place(p), limit)),
            _ => None,
        });
        cut_all(Set::all(), small)
    }

    fn form(set: &Set) -> Zone {
        let below_zero = number_of(Some(&Limit { units: 0, at_most: false }));
        let mut bounds = [below_zero; 49];
        if let Some(limits) = &set.limits {
            for (p, bound) in bounds.iter_mut().enumerate() {
                let (i, j) = place(p);
                *bound = number_of(if i == j { Some(&AT_MOST_ZERO) } else { limits.get(&(i, j)) });
            }
        }
        Zone { bounds }
    }

    fn gap_of(set: &Set, gap: &Gap) -> Result<Set, Slip> {
        set.gap(gap)
    }

    fn bounds(&self) -> [u64; 3] {
        let mut counts = [0; 3];
        for (p, number) in self.bounds.iter().enumerate() {
            if p % 8 != 0 {
                counts[told_by(*number).map_or(2, |(limit, _)| usize::from(limit.at_most))] += 1;
            }
        }
        counts
    }
}

impl Kind for OrderCodes {
    const NAME: &'static str = "order set";

    fn random(rng: &mut Prng) -> OrderCodes {
        let few = rng.pick(&[10, 30, 60, 90]);
        let strict = rng.pick(&[0, 10, 50, 90]);
        let sound = rng.chance(80);
        // around an order of the clocks, or at random
        let order: Vec<i64> = (0..7).map(|clock| if clock == 0 { 0 } else { rng.between(0, 3) }).collect();
        let real = rng.chance(60);
        let mut codes = [2; 49];
        for (p, code) in codes.iter_mut().enumerate() {
            let (i, j) = place(p);
            if i == j && sound {
                *code = 1;
            } else if rng.chance(few) && !(real && order[i] > order[j]) {
                *code = u8::from(!rng.chance(strict) || (real && order[i] == order[j]));
            } else if rng.chance(10) {
                *code = rng.pick(&[2, 3, 7, 127, 128, 255]);
            }
        }
        OrderCodes { codes }
    }

    fn explained(&self) -> Set {
        let signs = self.codes.iter().enumerate().filter(|(_, code)| **code < 2);
        cut_all(Set::all(), signs.map(|(p, code)| (place(p), Limit { units: 0, at_most: *code == 1 })))
    }

    fn form(set: &Set) -> OrderCodes {
        let mut codes = [0; 49];
        if let Some(limits) = &set.limits {
            for (p, code) in codes.iter_mut().enumerate() {
                let (i, j) = place(p);
                *code = if i == j { 1 } else { limits.get(&(i, j)).map_or(2, |limit| u8::from(limit.at_most)) };
            }
        }
        OrderCodes { codes }
    }

    /// A negative constant becomes "below zero", zero keeps its sign, a positive one leaves the set. What is a bad argument stays so.
    fn gap_of(set: &Set, gap: &Gap) -> Result<Set, Slip> {
        if gap.units == 0 || gap.units.abs() > LARGEST_CONSTANT {
            set.gap(gap)
        } else if gap.units < 0 {
            set.gap(&Gap { units: 0, at_most: false, ..*gap })
        } else {
            set.gap(gap).map(|_| set.clone())
        }
    }

    fn bounds(&self) -> [u64; 3] {
        let mut counts = [0; 3];
        for (p, code) in self.codes.iter().enumerate() {
            if p % 8 != 0 {
                counts[usize::from(*code).min(2)] += 1;
            }
        }
        counts
    }
}

/// Numbers that are not closed: bounds around a point, bounds at random, large ones, and whatever fits into 32 bits.
fn random_bounds(rng: &mut Prng) -> [i32; 49] {
    let few = rng.pick(&[10, 30, 60, 90, 100]);
    let size = rng.pick(&[3, 40, 9_999, 1_000_000, LARGEST_BOUND]);
    let flavour = rng.below(10);
    let point: Vec<i64> = (0..7).map(|clock| if clock == 0 { 0 } else { rng.between(0, size) }).collect();
    let sound = rng.chance(70);
    let mut bounds = [NO_BOUND; 49];
    for (p, bound) in bounds.iter_mut().enumerate() {
        let (i, j) = place(p);
        if i == j && sound {
            *bound = 1;
            continue;
        }
        if !rng.chance(few) {
            continue;
        }
        let at_most = rng.chance(60);
        let units = match flavour {
            // the point lies within
            0..=4 => point[i] - point[j] + rng.between(i64::from(!at_most), size.min(1 + size / 2)),
            5 => rng.between(-size / 8, size),
            6 => rng.between(-size, size),
            // about the largest constant, either way
            7 => rng.pick(&[-1, 1]) * (LARGEST_BOUND + rng.between(-2, 2)),
            8 => LARGEST_BOUND - rng.between(-1, 3),
            _ => rng.next() as i32 as i64 / 2,
        };
        let units =
            if rng.chance(1) { rng.pick(&[i64::from(i32::MIN) / 2, i64::from(i32::MAX) / 2, 4_194_304, -4_194_305]) } else { units };
        *bound = (2 * units + i64::from(at_most)).clamp(i32::MIN.into(), i32::MAX.into()) as i32;
    }
    bounds
}

/// A gap as a caller may write it, good or bad.
fn random_gap(rng: &mut Prng) -> Gap {
    let first = rng.below(7);
    let mut gap = Gap { first, second: (first + 1 + rng.below(6)) % 7, units: 0, at_most: rng.chance(60) };
    let most = LARGEST_CONSTANT;
    gap.units = match rng.below(12) {
        0 => 0,
        1..=4 => rng.between(-4, 12),
        5 => rng.between(-4, 4),
        6..=8 => rng.between(-most / 10, most),
        9 => rng.between(-most, most),
        10 => rng.pick(&[-most, 1 - most, most - 1, most]),
        _ => rng.between(0, most),
    };
    if rng.chance(5) {
        match rng.below(4) {
            0 => gap.first = rng.pick(&[7, 8, 127, 255]),
            1 => gap.second = rng.pick(&[7, 8, 127, 255]),
            2 => gap.second = gap.first,
            _ => gap.units = rng.pick(&[-10_000, 10_000, 32_768, i64::from(i32::MIN), i64::from(i32::MAX)]),
        }
    }
    gap
}

fn random_mask(rng: &mut Prng) -> u8 {
    match rng.below(20) {
        0 => rng.pick(&[64, 65, 128, 255]),
        1 => 63,
        2 => 0,
        3..=10 => 1 << rng.below(6),
        _ => rng.below(64) as u8,
    }
}

/// One case: what came in it, and, if it is to be printed, every step in words.
struct Case<'a> {
    rng: Prng,
    tally: &'a mut Tally,
    steps: Option<Vec<String>>,
}

type Agreed<T> = Result<T, String>;

/// The same set twice.
#[derive(Clone)]
struct Pair<K> {
    proved: K,
    second: Set,
}

impl Case<'_> {
    fn tell(&mut self, words: impl FnOnce() -> String) {
        if let Some(steps) = &mut self.steps {
            steps.push(words());
        }
    }

    fn count(&mut self, kind: &'static str, call: &'static str, answer: impl Into<String>) {
        *self.tally.entry((kind, call, answer.into())).or_default() += 1;
    }

    fn begin<K: Kind>(&mut self) -> Agreed<Pair<K>> {
        let (call, pair) = match self.rng.below(10) {
            0..=3 => ("all", Pair { proved: K::all(), second: Set::all() }),
            4..=6 => ("zero", Pair { proved: K::zero(), second: Set::zero() }),
            _ => {
                let proved = K::random(&mut self.rng);
                ("numbers", Pair { proved, second: proved.explained() })
            }
        };
        self.tell(|| format!("begin with {call}: {:?}", pair.proved));
        if call != "numbers" {
            self.count(K::NAME, call, "made");
            agree("set", &pair.proved, &K::form(&pair.second))?;
        }
        self.is_empty(&pair, call == "numbers")?;
        Ok(pair)
    }

    fn is_empty<K: Kind>(&mut self, pair: &Pair<K>, raw: bool) -> Agreed<()> {
        let empty = pair.proved.is_empty();
        self.tell(|| format!("is_empty: {empty}"));
        let name = if raw { "is_empty, numbers" } else { "is_empty" };
        self.count(K::NAME, name, if empty { "yes" } else { "no" });
        agree("is_empty", &empty, &pair.second.is_empty())
    }

    fn within<K: Kind>(&mut self, low: &Pair<K>, high: &Pair<K>) -> Agreed<()> {
        let answer = low.proved.within(&high.proved);
        self.tell(|| format!("within: {answer}, of {:?} in {:?}", low.proved, high.proved));
        let empty = low.second.is_empty();
        self.count(
            K::NAME,
            "within",
            if empty {
                "yes, of an empty one"
            } else if answer {
                "yes"
            } else {
                "no"
            },
        );
        agree("within", &answer, &low.second.within(&high.second))
    }

    /// After gap, reset or delay: the same refusal and an untouched set, or the same 49 bounds.
    fn came<K: Kind>(&mut self, call: &'static str, pair: &mut Pair<K>, proved: K, number: u8, second: Result<Set, Slip>) -> Agreed<()> {
        self.tell(|| format!("  answer {number}: {proved:?}"));
        match second {
            Err(slip) => {
                self.count(K::NAME, call, format!("refused {number}"));
                agree("refusal", &(u64::from(number), 0), &(u64::from(slip.number), slip.place))?;
                agree("refused set", &proved, &pair.proved)
            }
            Ok(set) => {
                agree("answer", &number, &0)?;
                agree("bounds", &proved, &K::form(&set))?;
                self.count(K::NAME, call, if set.is_empty() { "empty" } else { "made" });
                if !set.is_empty() {
                    for (name, count) in ["strict", "at most", "none"].iter().zip(proved.bounds()) {
                        *self.tally.entry((K::NAME, "bounds compared", name.to_string())).or_default() += count;
                    }
                }
                *pair = Pair { proved, second: set };
                Ok(())
            }
        }
    }

    fn gap<K: Kind>(&mut self, pair: &mut Pair<K>, gap: &Gap) -> Agreed<()> {
        self.tell(|| format!("gap {gap:?}"));
        let mut proved = pair.proved;
        let number = proved.gap(gap.first as u8, gap.second as u8, !gap.at_most, gap.units as i32);
        let second = K::gap_of(&pair.second, gap);
        self.came("gap", pair, proved, number, second)
    }

    fn reset<K: Kind>(&mut self, pair: &mut Pair<K>, mask: u8) -> Agreed<()> {
        self.tell(|| format!("reset {mask}"));
        let mut proved = pair.proved;
        let number = proved.reset(mask);
        let clocks: BTreeSet<usize> = (0..8).filter(|bit| (mask >> bit) % 2 == 1).map(|bit| bit + 1).collect();
        let second = pair.second.reset(&clocks);
        self.came("reset", pair, proved, number, second)
    }

    fn delay<K: Kind>(&mut self, pair: &mut Pair<K>) -> Agreed<()> {
        self.tell(|| "delay".to_string());
        let mut proved = pair.proved;
        let number = proved.delay();
        let second = pair.second.delay();
        self.came("delay", pair, proved, number, second)
    }

    /// Some calls on two sets. An empty set is mostly left again, so that later calls find something.
    fn calls<K: Kind>(&mut self) -> Agreed<()> {
        let mut here: Pair<K> = self.begin()?;
        let mut other: Pair<K> = self.begin()?;
        for _ in 0..self.rng.between(3, 12) {
            let before = here.clone();
            match self.rng.below(16) {
                0..=6 => {
                    let gap = random_gap(&mut self.rng);
                    self.gap(&mut here, &gap)?;
                }
                7..=8 => {
                    let mask = random_mask(&mut self.rng);
                    self.reset(&mut here, mask)?;
                }
                9..=11 => self.delay(&mut here)?,
                12 => self.is_empty(&here, false)?,
                _ => {
                    self.within(&here, &other)?;
                    self.within(&other, &here)?;
                }
            }
            if here.second.is_empty() && !before.second.is_empty() && self.rng.chance(75) {
                self.tell(|| "back to the set before".to_string());
                here = before;
            } else if self.rng.chance(25) {
                // a set within or around the other comes often enough this way
                self.tell(|| "swap with the set before".to_string());
                (here, other) = (other, if self.rng.chance(50) { before } else { here });
            }
        }
        self.within(&here, &other)
    }

    /// One clock is reset and waited for again and again, so that the bounds of the others grow until a call is refused.
    fn climb(&mut self) -> Agreed<()> {
        self.tell(|| "begin with all".to_string());
        let mut pair = Pair { proved: Zone::all(), second: Set::all() };
        let clock = 1 + self.rng.below(6);
        for _ in 0..450 {
            self.reset(&mut pair, 1 << (clock - 1))?;
            self.delay(&mut pair)?;
            let before = pair.proved;
            let units = -self.rng.between(LARGEST_CONSTANT - 50, LARGEST_CONSTANT);
            let at_most = self.rng.chance(90);
            self.gap(&mut pair, &Gap { first: 0, second: clock, units, at_most })?;
            if pair.proved == before {
                self.count(Zone::NAME, "climb", "came to a refusal");
                return self.is_empty(&pair, false);
            }
        }
        Err("a climb without end".to_string())
    }

    /// A closing of numbers. Nothing is said of clock 0 here, so the second judge starts without limits.
    fn closing(&mut self) -> Agreed<()> {
        let mut numbers = random_bounds(&mut self.rng).to_vec();
        if self.rng.chance(70) {
            numbers.iter_mut().filter(|number| told_by(**number).is_some_and(|(_, small)| !small)).for_each(|number| *number /= 1_000);
        }
        if self.rng.chance(2) {
            let length = self.rng.pick(&[0, 1, 7, 48, 50, 98]);
            numbers.resize(length, 1);
        }
        let mut after = numbers.clone();
        let answer = close(&mut after);
        self.tell(|| format!("close {numbers:?}\n  answer {answer}: {after:?}"));
        let told = ["closed", "no closed form", "refused, not 49", "refused, too large"];
        self.count("closing", "close", *told.get(usize::from(answer)).ok_or("an answer that is none")?);
        if numbers.len() != 49 {
            agree("answer", &answer, &NOT_49)?;
            return agree("refused bounds", &after, &numbers);
        }
        let limits: Vec<_> = numbers.iter().map(|number| told_by(*number)).collect();
        if limits.iter().flatten().any(|(_, small)| !small) {
            agree("answer", &answer, &TOO_LARGE)?;
            return agree("refused bounds", &after, &numbers);
        }
        let given: Limits = limits.iter().enumerate().filter_map(|(p, limit)| Some((place(p), (*limit)?.0))).collect();
        let set = cut_all(Set { limits: Some(Limits::new()) }, given.iter().map(|(pair, limit)| (*pair, *limit)));
        let Some(closed) = set.limits else {
            agree("answer", &answer, &NO_CLOSED_FORM)?;
            return agree("bounds", &after, &vec![0; 49]);
        };
        // from a clock to itself: as given, or there and back
        let round = |i: usize| {
            let ways = (0..7).filter(|j| *j != i).filter_map(|j| Some(closed.get(&(i, j))?.plus(*closed.get(&(j, i))?)));
            ways.chain(given.get(&(i, i)).copied()).min()
        };
        let expected: Vec<i32> =
            (0..49).map(place).map(|(i, j)| if i == j { number_of(round(i).as_ref()) } else { number_of(closed.get(&(i, j))) }).collect();
        agree("answer", &answer, &CLOSED)?;
        agree("bounds", &after, &expected)
    }

    fn run(&mut self) -> Agreed<()> {
        match self.rng.below(1_000) {
            0 => self.climb(),
            1..=149 => self.closing(),
            150..=649 => self.calls::<Zone>(),
            _ => self.calls::<OrderCodes>(),
        }
    }
}

fn agree<T: PartialEq + std::fmt::Debug>(what: &str, proved: &T, second: &T) -> Agreed<()> {
    if proved == second {
        Ok(())
    } else {
        Err(format!("{what}:\n  proved {proved:?}\n  second {second:?}"))
    }
}

fn case(seed: u64, number: u64, tally: &mut Tally, words: bool) -> (Agreed<()>, Vec<String>) {
    let mixed = Prng::new(seed).next() ^ number.wrapping_mul(0xd134_2543_de82_ef95);
    let mut case = Case { rng: Prng::new(mixed), tally, steps: words.then(Vec::new) };
    let agreed = case.run();
    (agreed, case.steps.unwrap_or_default())
}

fn main() {
    let arguments: Vec<String> = std::env::args().collect();
    let number = |place: usize, default: u64| arguments.get(place).map_or(default, |word| word.parse().expect("a number"));
    let (cases, seed) = (number(1, 200_000), number(2, 1));
    let begun = Instant::now();
    let mut tally = Tally::new();
    for n in 0..cases {
        if case(seed, n, &mut tally, false).0.is_err() {
            let (difference, steps) = case(seed, n, &mut Tally::new(), true);
            println!("seed {seed}, case {n}:\n{}", steps.join("\n"));
            println!("DIFFERENT {}", difference.expect_err("the same difference again"));
            exit(1);
        }
    }
    for ((kind, call, answer), count) in &tally {
        println!("{kind:<10} {call:<18} {answer:<22} {count:>12}");
    }
    println!("{cases} cases, seed {seed}: no difference ({:.1} s)", begun.elapsed().as_secs_f64());
}
