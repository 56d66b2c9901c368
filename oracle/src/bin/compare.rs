//! compare JUDGE WALK CASES SEED: random tasks, the programs' output beside the oracle's. A program given as `-` is left out.

use oracle::fast::fast_text;
use oracle::gen::{task, Task};
use oracle::plain::plain_text;
use oracle::prng::Prng;
use oracle::report::{judge_text, walk_text, Files};
use std::collections::BTreeMap;
use std::fs;
use std::path::{Path, PathBuf};
use std::process::{exit, Command, Stdio};
use std::time::Instant;

fn put(folder: &Path, name: &str, bytes: &Option<Vec<u8>>) {
    let path = folder.join(name);
    match bytes {
        Some(bytes) => fs::write(path, bytes).expect("a file in the temporary folder"),
        None => {
            let _ = fs::remove_file(path);
        }
    }
}

fn save(folder: &Path, model: &Option<Vec<u8>>, cover: &Option<Vec<u8>>, trail: &Option<Vec<u8>>) {
    put(folder, "model.hd", model);
    put(folder, "cover.hd", cover);
    put(folder, "trail.hd", trail);
}

fn run(program: &Path, folder: &Path) -> (Vec<u8>, Option<i32>) {
    let output = Command::new(program).current_dir(folder).stdin(Stdio::null()).stderr(Stdio::inherit()).output();
    let output = output.unwrap_or_else(|error| panic!("{}: {error}", program.display()));
    (output.stdout, output.status.code())
}

/// The last line of a report, without its places and numbers.
fn kind(text: &str) -> String {
    let last = text.lines().last().unwrap_or("");
    let words: Vec<&str> = last.split(' ').collect();
    match words[..] {
        ["refused", number, ..] => format!("refused {number:>2}"),
        ["trail", "none"] => "trail none".to_string(),
        ["trail", ..] => "trail walked".to_string(),
        _ => last.to_string(),
    }
}

fn short(text: &str) -> String {
    let lines: Vec<&str> = text.lines().collect();
    if lines.len() <= 40 {
        return text.to_string();
    }
    format!("{}\n.. {} lines ..\n{}\n", lines[..20].join("\n"), lines.len() - 40, lines[lines.len() - 20..].join("\n"))
}

struct Sides<'a> {
    program: &'a Path,
    expected: &'a str,
}

/// The status is only counted, unless the program was ended by a signal or a panic.
fn differ(side: &Sides, folder: &Path, case: usize, seed: u64, statuses: &mut BTreeMap<i32, usize>) -> bool {
    let (got, status) = run(side.program, folder);
    if let Some(status) = status.filter(|status| *status != 101 && got == side.expected.as_bytes()) {
        *statuses.entry(status).or_default() += 1;
        return false;
    }
    let got = String::from_utf8_lossy(&got);
    println!("case {case} of seed {seed} differs: {} (status {status:?})", side.program.display());
    println!("files: {}", folder.display());
    if let Some(line) = got.lines().zip(side.expected.lines()).position(|(a, b)| a != b) {
        println!("first line that differs: {}", line + 1);
    }
    println!("--- program\n{}--- oracle\n{}---", short(&got), short(side.expected));
    true
}

fn main() {
    let arguments: Vec<String> = std::env::args().collect();
    if arguments.len() != 5 {
        eprintln!("usage: compare JUDGE WALK CASES SEED");
        exit(2);
    }
    let whole = |path: &str| -> Option<PathBuf> {
        let found = |path: &str| fs::canonicalize(path).unwrap_or_else(|error| panic!("{path}: {error}"));
        Some(path).filter(|path| *path != "-").map(found)
    };
    let (judge, walk) = (whole(&arguments[1]), whole(&arguments[2]));
    let cases: usize = arguments[3].parse().expect("a number of cases");
    let seed: u64 = arguments[4].parse().expect("a seed");
    let folder = PathBuf::from(format!("/tmp/yildozhum-compare-{}", std::process::id()));
    fs::create_dir_all(&folder).expect("a temporary folder");

    let begun = Instant::now();
    let mut judged: BTreeMap<String, usize> = BTreeMap::new();
    let mut walked: BTreeMap<String, usize> = BTreeMap::new();
    let mut statuses: BTreeMap<i32, usize> = BTreeMap::new();
    let mut numbers: BTreeMap<&str, [usize; 3]> = BTreeMap::new();
    for case in 0..cases {
        let mut rng = Prng::new(seed.wrapping_mul(1_000_003).wrapping_add(case as u64).wrapping_mul(0x2545_f491_4f6c_dd1d));
        let Task { model, cover, trail } = task(&mut rng);
        let files = Files { model: model.as_deref(), cover: cover.as_deref(), trail: trail.as_deref() };
        let expected = judge_text(&files);
        let steps = walk_text(&files);
        for (name, text) in [("fast", fast_text(&files)), ("plain", plain_text(&files))] {
            if text != expected {
                save(&folder, &model, &cover, &trail);
                println!(
                    "case {case} of seed {seed}: {name} differs\nfiles: {}\n--- {name}\n{text}--- oracle\n{expected}---",
                    folder.display()
                );
                exit(1);
            }
        }
        let judge = judge.as_deref().map(|program| Sides { program, expected: &expected });
        let walk = walk.as_deref().map(|program| Sides { program, expected: &steps });
        if judge.is_some() || walk.is_some() {
            save(&folder, &model, &cover, &trail);
        }
        if judge.iter().chain(&walk).any(|side| differ(side, &folder, case, seed, &mut statuses)) {
            exit(1);
        }
        *judged.entry(kind(&expected)).or_default() += 1;
        *walked.entry(kind(&steps)).or_default() += 1;
        tally(&mut numbers, &expected, &steps);
    }
    fs::remove_dir_all(&folder).expect("the temporary folder");

    println!("{cases} cases of seed {seed}, {:.1} s, no difference", begun.elapsed().as_secs_f64());
    println!("{:<20} {:>8} {:>8}", "last line", "judge", "walk");
    let mut kinds: Vec<&String> = judged.keys().chain(walked.keys()).collect();
    kinds.sort();
    kinds.dedup();
    for kind in kinds {
        let of = |table: &BTreeMap<String, usize>| table.get(kind).copied().unwrap_or(0);
        println!("{kind:<20} {:>8} {:>8}", of(&judged), of(&walked));
    }
    for (status, runs) in &statuses {
        println!("runs with status {status}: {runs}");
    }
    println!("{:<20} {:>8} {:>8} {:>8}", "number", "cases", "mean", "greatest");
    for (name, [count, sum, most]) in &numbers {
        println!("{name:<20} {count:>8} {:>8} {most:>8}", sum / count);
    }
}

/// How large the accepted tasks were.
fn tally(numbers: &mut BTreeMap<&str, [usize; 3]>, report: &str, steps: &str) {
    let mut note = |name, value: usize| {
        let row = numbers.entry(name).or_default();
        *row = [row[0] + 1, row[1] + value, row[2].max(value)];
    };
    for line in report.lines() {
        let words: Vec<&str> = line.split(' ').collect();
        match words[..] {
            ["cells", n] => note("cells", n.parse().unwrap()),
            ["entries", e, "duties", d, "open", o] => {
                note("entries", e.parse().unwrap());
                note("duties", d.parse().unwrap());
                note("open duties", o.parse().unwrap());
                if o == "0" && e != "0" {
                    note("entries if none open", e.parse().unwrap());
                }
            }
            _ => {}
        }
    }
    note("steps walked", steps.lines().filter(|line| line.contains(": cell ")).count());
}
