//! Calls of zones through the proved library, beside a plain implementation of the same steps: alternating rounds in one
//! process, the median and the spread of their ratio.

use kinds_bench::{Stored, Zone};
use oracle::fast::Cut;
use oracle::plain::{self, delay, reset, within};
use std::hint::black_box;
use std::time::Instant;

fn gap(z: &mut Zone, first: u8, second: u8, strict: bool, constant: i32) -> bool {
    plain::gap(z, Cut { first: first as usize, second: second as usize, bound: 2 * constant + i32::from(!strict) })
}

struct Random(u64);

impl Random {
    fn below(&mut self, n: u64) -> u64 {
        self.0 ^= self.0 << 13;
        self.0 ^= self.0 >> 7;
        self.0 ^= self.0 << 17;
        (self.0 >> 11) % n
    }
}

// gaps, delays and resets from the six zeros, so that the zones are closed; one in sixteen may be empty
fn zones(r: &mut Random) -> Vec<Zone> {
    (0..256)
        .map(|n| {
            let mut z = Zone { bounds: [1; 49] };
            for _ in 0..6 {
                delay(&mut z);
                for _ in 0..2 {
                    let first = r.below(7) as u8;
                    let second = (first + 1 + r.below(6) as u8) % 7;
                    let mut cut = z;
                    gap(&mut cut, first, second, r.below(2) == 0, r.below(200) as i32 - 60);
                    if n % 16 == 0 || cut.bounds[0] == 1 {
                        z = cut;
                    }
                }
                reset(&mut z, r.below(64) as u8 & r.below(64) as u8);
            }
            z
        })
        .collect()
}

fn time(f: &mut dyn FnMut()) -> f64 {
    let start = Instant::now();
    f();
    start.elapsed().as_nanos() as f64
}

fn report(name: &str, calls: f64, ours: &mut dyn FnMut(), plain: &mut dyn FnMut()) {
    let mut ratios = vec![];
    let mut a = vec![];
    let mut b = vec![];
    // each side goes first once in a round
    for _ in 0..401 {
        let x = time(ours);
        let y = time(plain) + time(plain);
        let x = x + time(ours);
        a.push(x / (2.0 * calls));
        b.push(y / (2.0 * calls));
        ratios.push(x / y);
    }
    for v in [&mut ratios, &mut a, &mut b] {
        v.sort_by(f64::total_cmp);
    }
    println!(
        "{name:7} proved {:6.1} ns  plain {:6.1} ns  ratio {:.3} (quarters {:.3} to {:.3})",
        a[200], b[200], ratios[200], ratios[100], ratios[300]
    );
}

fn main() {
    let mut r = Random(0x9e37_79b9_7f4a_7c15);
    let all = zones(&mut r);
    let empty = all.iter().filter(|z| z.bounds[0] < 1).count();
    println!("{} zones, {empty} of them empty", all.len());
    let gaps: Vec<(u8, u8, bool, i32)> = all
        .iter()
        .map(|_| {
            let first = r.below(7) as u8;
            (first, (first + 1 + r.below(6) as u8) % 7, r.below(2) == 0, r.below(200) as i32 - 60)
        })
        .collect();
    let masks: Vec<u8> = all.iter().map(|_| r.below(64) as u8).collect();
    // both sides first give the same answers and the same zones
    for (n, z) in all.iter().enumerate() {
        let g = gaps[n];
        let (mut x, mut y) = (*z, *z);
        assert_eq!(x.gap(g.0, g.1, g.2, g.3) == 0, gap(&mut y, g.0, g.1, g.2, g.3));
        assert_eq!(x, y);
        assert_eq!(x.reset(masks[n]) == 0, reset(&mut y, masks[n]));
        assert_eq!(x, y);
        assert_eq!(x.delay() == 0, delay(&mut y));
        assert_eq!(x, y);
        let other = &all[(n + 1) % all.len()];
        assert_eq!(x.within(other), within(&y, other));
    }
    const TURNS: usize = 4;
    let calls = (TURNS * all.len()) as f64;
    report(
        "gap",
        calls,
        &mut || {
            for _ in 0..TURNS {
                for (n, z) in all.iter().enumerate() {
                    let g = gaps[n];
                    let mut x = *z;
                    black_box(x.gap(g.0, g.1, g.2, g.3));
                    black_box(&x);
                }
            }
        },
        &mut || {
            for _ in 0..TURNS {
                for (n, z) in all.iter().enumerate() {
                    let g = gaps[n];
                    let mut x = *z;
                    black_box(gap(&mut x, g.0, g.1, g.2, g.3));
                    black_box(&x);
                }
            }
        },
    );
    report(
        "reset",
        calls,
        &mut || {
            for _ in 0..TURNS {
                for (n, z) in all.iter().enumerate() {
                    let mut x = *z;
                    black_box(x.reset(masks[n]));
                    black_box(&x);
                }
            }
        },
        &mut || {
            for _ in 0..TURNS {
                for (n, z) in all.iter().enumerate() {
                    let mut x = *z;
                    black_box(reset(&mut x, masks[n]));
                    black_box(&x);
                }
            }
        },
    );
    report(
        "delay",
        calls,
        &mut || {
            for _ in 0..TURNS {
                for z in &all {
                    let mut x = *z;
                    black_box(x.delay());
                    black_box(&x);
                }
            }
        },
        &mut || {
            for _ in 0..TURNS {
                for z in &all {
                    let mut x = *z;
                    black_box(delay(&mut x));
                    black_box(&x);
                }
            }
        },
    );
    report(
        "within",
        calls,
        &mut || {
            for _ in 0..TURNS {
                for (n, z) in all.iter().enumerate() {
                    black_box(z.within(&all[(n + 1) % all.len()]));
                }
            }
        },
        &mut || {
            for _ in 0..TURNS {
                for (n, z) in all.iter().enumerate() {
                    black_box(within(z, &all[(n + 1) % all.len()]));
                }
            }
        },
    );
}
