//! bench [JUDGE [ROUNDS]]: full tasks, timed end to end: the judge program, the oracle and the flat-array judge, in alternating rounds.

use oracle::bytes::{write_cover, write_model, Written};
use oracle::fast::fast_text;
use oracle::plan::{Cell, End, Event, Plan};
use oracle::prng::Prng;
use oracle::report::Files;
use oracle::sets::Gap;
use std::collections::BTreeSet;
use std::fs;
use std::io::Read;
use std::path::{Path, PathBuf};
use std::process::{exit, Command, Stdio};
use std::time::Instant;

/// A cell all of whose faces are one cell.
fn over(below: usize, events: usize) -> Cell {
    Cell { events: vec![Event { letter: b'R', lower: below, upper: below }; events], ..Cell::default() }
}

/// Ends for all six clocks, which cut the sets of the covers here and empty none of them; and an exit set.
fn dressed(mut plan: Plan) -> Plan {
    let first = plan.first;
    for (number, cell) in plan.cells.iter_mut().enumerate() {
        cell.exit = BTreeSet::from([1, 2, 3]);
        for clock in 1..=6 {
            let turn = (3 * number % 7) as i64;
            let units = if clock <= 3 || number == first { 0 } else { 1_000 + 100 * turn + 10 * clock as i64 };
            cell.low.insert(clock, End { units, open: units > 0 && clock == 5 });
            cell.high.insert(clock, End { units: 8_000 - 150 * turn - 10 * clock as i64, open: clock % 2 == 0 });
        }
    }
    plan
}

/// Cells that nothing leads to, up to 200; the first of them is final.
fn filled(mut cells: Vec<Cell>) -> Plan {
    let end = cells.len();
    cells.push(Cell { last: true, ..Cell::default() });
    while cells.len() < 200 {
        let vertex = cells.len();
        cells.push(Cell::default());
        cells.extend((0..15.min(200 - cells.len())).map(|_| over(vertex, 1)));
    }
    assert!(cells[end].last);
    Plan { first: 0, cells }
}

/// A few cells, one of which (3) has sixteen steps: wait, three finishes, twelve starts.
fn hub() -> (Plan, Vec<usize>, Vec<usize>) {
    let cells = vec![Cell::default(), over(0, 1), over(1, 2), over(2, 3), over(3, 4), over(3, 4), over(3, 4)];
    (dressed(filled(cells)), (0..7).collect(), vec![3])
}

/// One vertex with so many loops: one step more than that.
fn star(loops: usize) -> (Plan, Vec<usize>, Vec<usize>) {
    let mut cells = vec![Cell::default()];
    cells.extend((0..loops).map(|_| over(0, 1)));
    (dressed(filled(cells)), (0..=loops).collect(), vec![0])
}

/// 200 cells, all within reach, filled depth first; many have sixteen steps.
fn wide() -> (Plan, Vec<usize>, Vec<usize>) {
    fn grow(cells: &mut Vec<Cell>, below: usize, events: usize) {
        let most = [15, 7, 4, 3];
        for _ in 0..most[events - 1] {
            if cells.len() == 200 {
                return;
            }
            cells.push(over(below, events));
            if events < 4 {
                grow(cells, cells.len() - 1, events + 1);
            }
        }
    }
    let mut cells = vec![Cell::default()];
    grow(&mut cells, 0, 1);
    let plan = dressed(Plan { first: 0, cells });
    let busiest = (0..200).filter(|cell| plan.steps_out(*cell).len() == 16).collect();
    (plan, (0..200).collect(), busiest)
}

/// Sets on the busy cells, each with so many gaps around a point, and behind them one set on each cell that holds everything.
fn cover(cells: &[usize], busy: &[usize], entries: usize, gaps_each: usize) -> Vec<Written> {
    let mut rng = Prng::new(5);
    let mut list: Vec<Written> = (cells.len()..entries)
        .map(|n| {
            let point: Vec<i64> = (0..7).map(|clock| if clock == 0 { 0 } else { rng.between(2_500, 5_900) }).collect();
            let mut gaps = Vec::new();
            for first in 0..7 {
                for second in (0..7).filter(|second| *second != first) {
                    gaps.push(Gap {
                        first,
                        second,
                        units: point[first] - point[second] + rng.between(1_500, 4_000),
                        at_most: rng.chance(50),
                    });
                }
            }
            rng.shuffle(&mut gaps);
            gaps.truncate(gaps_each);
            Written { cell: busy[n % busy.len()], gaps }
        })
        .collect();
    list.extend(cells.iter().map(|cell| Written { cell: *cell, gaps: Vec::new() }));
    list
}

struct Program {
    name: &'static str,
    path: PathBuf,
}

/// Elapsed time, time on a processor (where the system tells it; other work on the machine does not count there), and what was printed.
fn run(program: &Program, folder: &Path) -> (f64, Option<f64>, Vec<u8>) {
    let begun = Instant::now();
    let child = Command::new(&program.path).current_dir(folder).stdin(Stdio::null()).stdout(Stdio::piped()).spawn();
    let mut child = child.unwrap_or_else(|error| panic!("{}: {error}", program.path.display()));
    let mut text = Vec::new();
    child.stdout.take().expect("a pipe").read_to_end(&mut text).expect("its output");
    let elapsed = begun.elapsed().as_secs_f64() * 1_000.0;
    // ended, but not yet waited for
    let about = PathBuf::from(format!("/proc/{}", child.id()));
    let ended = || fs::read_to_string(about.join("stat")).map_or(true, |stat| stat.contains(") Z "));
    while !ended() {
        std::thread::yield_now();
    }
    let cpu = fs::read_to_string(about.join("schedstat")).ok().and_then(|line| line.split(' ').next()?.parse::<f64>().ok());
    child.wait().expect("its end");
    (elapsed, cpu.filter(|cpu| *cpu > 0.0).map(|cpu| cpu / 1e6), text)
}

fn middle(times: &mut [f64]) -> (f64, f64, f64) {
    times.sort_by(f64::total_cmp);
    (times[times.len() / 2], times[times.len() / 4], times[times.len() * 3 / 4])
}

fn time(name: &str, model: &[u8], cover: &[u8], programs: &[Program], rounds: usize, folder: &Path) {
    fs::write(folder.join("model.hd"), model).expect("a file");
    fs::write(folder.join("cover.hd"), cover).expect("a file");
    let files = Files { model: Some(model), cover: Some(cover), trail: None };
    let expected = fast_text(&files);
    let mut times = vec![Vec::new(); programs.len()];
    let mut busy = vec![Vec::new(); programs.len()];
    let mut inside = Vec::new();
    for round in 0..rounds {
        for turn in 0..programs.len() {
            let which = (turn + round) % programs.len();
            let (took, cpu, text) = run(&programs[which], folder);
            if text != expected.as_bytes() {
                println!("{}: {} prints\n{}and not\n{expected}", name, programs[which].name, String::from_utf8_lossy(&text));
                exit(1);
            }
            times[which].push(took);
            busy[which].extend(cpu);
        }
        let begun = Instant::now();
        assert_eq!(fast_text(&files), expected);
        inside.push(begun.elapsed().as_secs_f64() * 1_000.0);
    }
    let told: Vec<&str> = expected.lines().collect();
    println!("{name}: {}, {}, {}", told[0], told[1], told[told.len() - 1]);
    let line = |name: &str, times: &mut Vec<f64>, busy: &mut Vec<f64>| {
        let (median, low, high) = middle(times);
        let cpu = if busy.is_empty() {
            String::new()
        } else {
            format!("   processor: median {:>7.2} ms, least {:>7.2}", middle(busy).0, busy[0])
        };
        println!("  {name:<22} median {median:>7.2} ms, quartiles {low:>7.2} {high:>7.2}, least {:>7.2}{cpu}", times[0]);
    };
    for which in 0..programs.len() {
        line(programs[which].name, &mut times[which], &mut busy[which]);
    }
    line("fast, without process", &mut inside, &mut Vec::new());
}

fn main() {
    let arguments: Vec<String> = std::env::args().collect();
    let here = std::env::current_exe().expect("the path of this program");
    let beside = |name: &str| here.with_file_name(name);
    let peer = |name, file: &str| Program { name, path: beside(file) };
    let mut programs = vec![peer("plain", "plain-judge"), peer("fast", "fast-judge"), peer("oracle", "oracle")];
    if let Some(judge) = arguments.get(1) {
        let path = fs::canonicalize(judge).unwrap_or_else(|error| panic!("{judge}: {error}"));
        programs.insert(0, Program { name: "judge", path });
    }
    let rounds: usize = arguments.get(2).map_or(15, |rounds| rounds.parse().expect("a number of rounds"));
    let folder = PathBuf::from(format!("/tmp/yildozhum-bench-{}", std::process::id()));
    fs::create_dir_all(&folder).expect("a temporary folder");

    let task = |name: &str, (plan, cells, busy): (Plan, Vec<usize>, Vec<usize>), entries: usize, gaps: usize| {
        let model = write_model(&plan);
        let cover = write_cover(&cover(&cells, &busy, entries, gaps));
        time(name, &model, &cover, &programs, rounds, &folder);
    };
    let one = Plan { first: 0, cells: vec![Cell::default()] };
    task("start of a process", (one, vec![0], vec![0]), 1, 0);
    println!("\nfull tasks, up to 42 gaps in an entry");
    task("hub, most duties", hub(), 256, 42);
    task("wide, every cell within reach", wide(), 256, 42);
    println!("\ngrowth with entries, up to 12 gaps in an entry");
    for entries in [32, 64, 128, 256] {
        task(&format!("hub, {entries} entries"), hub(), entries, 12);
    }
    println!("\ngrowth with steps, up to 12 gaps in an entry");
    for loops in [1, 3, 7, 15] {
        task(&format!("star, {} steps", loops + 1), star(loops), 256, 12);
    }
    fs::remove_dir_all(&folder).expect("the temporary folder");
}
