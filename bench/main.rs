// Calls of zones through the proved library, beside a plain implementation of the same steps: alternating rounds in one
// process, the median and the spread of their ratio.
use std::hint::black_box;
use std::time::Instant;

#[repr(C)]
#[derive(Clone, Copy, PartialEq, Debug)]
struct Zone {
    bounds: [i32; 49],
}

#[link(name = "bench_zone", kind = "static")]
unsafe extern "C" {
    fn bench_zone_gap(zone: &mut Zone, first: u8, second: u8, strict: bool, constant: i32) -> bool;
    fn bench_zone_reset(zone: &mut Zone, mask: u8) -> bool;
    fn bench_zone_delay(zone: &mut Zone) -> bool;
    fn bench_zone_within(low: &Zone, high: &Zone) -> bool;
}

const FREE: i32 = i32::MAX;

fn is_small(b: i32) -> bool {
    b == FREE || (-8_000_000 <= b && b <= 8_000_001)
}

fn add(x: i32, y: i32) -> i32 {
    if x == FREE || y == FREE { FREE } else { x + y - ((x | y) & 1) }
}

fn load(z: &Zone) -> [i32; 49] {
    let mut m = [FREE; 49];
    for p in 0..49 {
        m[p] = if is_small(z.bounds[p]) { z.bounds[p] } else { FREE };
    }
    m
}

fn close(m: &mut [i32; 49]) -> bool {
    for k in 0..7 {
        if m[8 * k] < 1 {
            return false;
        }
        let mut row = [0; 7];
        row.copy_from_slice(&m[7 * k..7 * k + 7]);
        for i in 0..7 {
            let via = m[7 * i + k];
            for j in 0..7 {
                let sum = add(via, row[j]);
                let b = m[7 * i + j];
                m[7 * i + j] = if sum < b { sum } else { b };
            }
        }
    }
    (0..7).all(|k| m[8 * k] >= 1)
}

fn canonicalize(m: &mut [i32; 49]) -> bool {
    for k in 0..7 {
        m[k] = m[k].min(1);
        m[8 * k] = m[8 * k].min(1);
    }
    if close(m) {
        true
    } else {
        *m = [0; 49];
        false
    }
}

fn keep(z: &mut Zone, m: [i32; 49]) -> bool {
    for b in m {
        if !is_small(b) {
            return false;
        }
    }
    z.bounds = m;
    true
}

#[inline(never)]
fn gap(z: &mut Zone, first: u8, second: u8, strict: bool, constant: i32) -> bool {
    if first > 6 || second > 6 || first == second || constant > 9_999 || constant < -9_999 {
        return false;
    }
    let mut m = load(z);
    let p = 7 * first as usize + second as usize;
    m[p] = m[p].min(2 * constant + if strict { 0 } else { 1 });
    canonicalize(&mut m);
    keep(z, m)
}

fn home(mask: u8, i: usize) -> usize {
    if i == 0 || (mask >> (i - 1)) & 1 == 1 { 0 } else { i }
}

#[inline(never)]
fn reset(z: &mut Zone, mask: u8) -> bool {
    if mask >= 64 {
        return false;
    }
    let mut m = load(z);
    let mut to = m;
    canonicalize(&mut m);
    for p in 0..49 {
        to[p] = m[7 * home(mask, p / 7) + home(mask, p % 7)];
    }
    keep(z, to)
}

#[inline(never)]
fn delay(z: &mut Zone) -> bool {
    let mut m = load(z);
    if canonicalize(&mut m) {
        for i in 1..7 {
            m[7 * i] = FREE;
        }
    }
    keep(z, m)
}

#[inline(never)]
fn within(low: &Zone, high: &Zone) -> bool {
    let mut m = load(low);
    let high = load(high);
    !canonicalize(&mut m) || (0..49).all(|p| m[p] <= high[p])
}

struct Random(u64);

impl Random {
    fn below(&mut self, n: u64) -> u64 {
        self.0 ^= self.0 << 13;
        self.0 ^= self.0 >> 7;
        self.0 ^= self.0 << 17;
        (self.0 >> 11) % n
    }
}

// gaps, delays and resets from the six zeros, so that the zones are closed; one in sixteen may be empty
fn zones(r: &mut Random) -> Vec<Zone> {
    (0..256)
        .map(|n| {
            let mut z = Zone { bounds: [1; 49] };
            for _ in 0..6 {
                delay(&mut z);
                for _ in 0..2 {
                    let first = r.below(7) as u8;
                    let second = (first + 1 + r.below(6) as u8) % 7;
                    let mut cut = z;
                    gap(&mut cut, first, second, r.below(2) == 0, r.below(200) as i32 - 60);
                    if n % 16 == 0 || cut.bounds[0] == 1 {
                        z = cut;
                    }
                }
                reset(&mut z, r.below(64) as u8 & r.below(64) as u8);
            }
            z
        })
        .collect()
}

fn time(f: &mut dyn FnMut()) -> f64 {
    let start = Instant::now();
    f();
    start.elapsed().as_nanos() as f64
}

fn report(name: &str, calls: f64, ours: &mut dyn FnMut(), plain: &mut dyn FnMut()) {
    let mut ratios = vec![];
    let mut a = vec![];
    let mut b = vec![];
    // each side goes first once in a round
    for _ in 0..401 {
        let x = time(ours);
        let y = time(plain) + time(plain);
        let x = x + time(ours);
        a.push(x / (2.0 * calls));
        b.push(y / (2.0 * calls));
        ratios.push(x / y);
    }
    for v in [&mut ratios, &mut a, &mut b] {
        v.sort_by(f64::total_cmp);
    }
    println!(
        "{name:7} proved {:6.1} ns  plain {:6.1} ns  ratio {:.3} (quarters {:.3} to {:.3})",
        a[200], b[200], ratios[200], ratios[100], ratios[300]
    );
}

fn main() {
    let mut r = Random(0x9e37_79b9_7f4a_7c15);
    let all = zones(&mut r);
    let empty = all.iter().filter(|z| z.bounds[0] < 1).count();
    println!("{} zones, {empty} of them empty", all.len());
    let gaps: Vec<(u8, u8, bool, i32)> = all
        .iter()
        .map(|_| {
            let first = r.below(7) as u8;
            (first, (first + 1 + r.below(6) as u8) % 7, r.below(2) == 0, r.below(200) as i32 - 60)
        })
        .collect();
    let masks: Vec<u8> = all.iter().map(|_| r.below(64) as u8).collect();
    // both sides first give the same answers and the same zones
    for (n, z) in all.iter().enumerate() {
        let g = gaps[n];
        let (mut x, mut y) = (*z, *z);
        assert_eq!(unsafe { bench_zone_gap(&mut x, g.0, g.1, g.2, g.3) }, gap(&mut y, g.0, g.1, g.2, g.3));
        assert_eq!(x, y);
        assert_eq!(unsafe { bench_zone_reset(&mut x, masks[n]) }, reset(&mut y, masks[n]));
        assert_eq!(x, y);
        assert_eq!(unsafe { bench_zone_delay(&mut x) }, delay(&mut y));
        assert_eq!(x, y);
        let other = &all[(n + 1) % all.len()];
        assert_eq!(unsafe { bench_zone_within(&x, other) }, within(&y, other));
    }
    const TURNS: usize = 4;
    let calls = (TURNS * all.len()) as f64;
    report("gap", calls, &mut || for _ in 0..TURNS { for (n, z) in all.iter().enumerate() {
        let g = gaps[n];
        let mut x = *z;
        black_box(unsafe { bench_zone_gap(&mut x, g.0, g.1, g.2, g.3) });
        black_box(&x);
    } }, &mut || for _ in 0..TURNS { for (n, z) in all.iter().enumerate() {
        let g = gaps[n];
        let mut x = *z;
        black_box(gap(&mut x, g.0, g.1, g.2, g.3));
        black_box(&x);
    } });
    report("reset", calls, &mut || for _ in 0..TURNS { for (n, z) in all.iter().enumerate() {
        let mut x = *z;
        black_box(unsafe { bench_zone_reset(&mut x, masks[n]) });
        black_box(&x);
    } }, &mut || for _ in 0..TURNS { for (n, z) in all.iter().enumerate() {
        let mut x = *z;
        black_box(reset(&mut x, masks[n]));
        black_box(&x);
    } });
    report("delay", calls, &mut || for _ in 0..TURNS { for z in &all {
        let mut x = *z;
        black_box(unsafe { bench_zone_delay(&mut x) });
        black_box(&x);
    } }, &mut || for _ in 0..TURNS { for z in &all {
        let mut x = *z;
        black_box(delay(&mut x));
        black_box(&x);
    } });
    report("within", calls, &mut || for _ in 0..TURNS { for (n, z) in all.iter().enumerate() {
        black_box(unsafe { bench_zone_within(z, &all[(n + 1) % all.len()]) });
    } }, &mut || for _ in 0..TURNS { for (n, z) in all.iter().enumerate() {
        black_box(within(z, &all[(n + 1) % all.len()]));
    } });
}
