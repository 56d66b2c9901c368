//! What the programs print (docs/report.md). `None` is a missing file.

use crate::bytes::{parse_cover, parse_model, parse_trail, Slip, Told};
use crate::docket::Docket;
use crate::plan::Plan;
use crate::trail::Trail;

pub struct Files<'a> {
    pub model: Option<&'a [u8]>,
    pub cover: Option<&'a [u8]>,
    pub trail: Option<&'a [u8]>,
}

pub fn model_of(files: &Files) -> Result<Plan, Slip> {
    parse_model(files.model.unwrap_or(&[]))?.accept()
}

/// Units and a tenth: the nearest, half a tenth up.
pub fn tenths(elapsed: i64, scale: i64) -> String {
    let tenths = (20 * elapsed + scale) / (2 * scale);
    format!("{}.{}", tenths / 10, tenths % 10)
}

pub fn trail_line(trail: Option<&Trail>) -> String {
    match trail {
        None => "trail none\n".to_string(),
        Some(trail) => format!("trail cell {} elapsed {}\n", trail.now().cell, tenths(trail.now().elapsed, trail.scale)),
    }
}

fn finished(text: Result<(), Slip>, mut lines: String) -> String {
    if let Err(slip) = text {
        lines.push_str(&slip.line());
    }
    lines
}

pub fn judge_text(files: &Files) -> String {
    let mut lines = String::new();
    let end = judge_lines(files, &mut lines);
    finished(end, lines)
}

fn judge_lines(files: &Files, lines: &mut String) -> Result<(), Slip> {
    let plan = model_of(files)?;
    lines.push_str(&format!("cells {}\n", plan.cells.len()));

    let written = files.cover.map_or(Ok(Vec::new()), parse_cover)?;
    let mut docket = Docket::new(&plan);
    docket.lodge_written(&written)?;
    let duties = docket.duties();
    let open = duties.iter().filter(|duty| !docket.settled(duty)).count();
    lines.push_str(&format!("entries {} duties {} open {}\n", docket.entries.len(), duties.len(), open));

    let mut reached = false;
    let mut trail = None;
    if let Some(file) = files.trail {
        let (scale, steps) = parse_trail(file)?;
        let mut walked = Trail::set_out(&plan, scale)?;
        for told in steps {
            walked.step(&plan, told)?;
        }
        reached = plan.cells[walked.now().cell].last;
        trail = Some(walked);
    }
    lines.push_str(&trail_line(trail.as_ref()));

    let shut = open == 0 && !docket.touches_the_end();
    let word = match (reached, shut) {
        (true, _) => "reached",
        (false, true) => "shut",
        (false, false) => "undecided",
    };
    lines.push_str(&format!("verdict {word}\n"));
    Ok(())
}

pub fn walk_text(files: &Files) -> String {
    let mut lines = String::new();
    let end = walk_lines(files, &mut lines);
    finished(end, lines)
}

fn walk_lines(files: &Files, lines: &mut String) -> Result<(), Slip> {
    let plan = model_of(files)?;
    lines.push_str(&format!("cells {}\n", plan.cells.len()));
    let mut trail = None;
    if let Some(file) = files.trail {
        let (scale, steps) = parse_trail(file)?;
        let mut walked = Trail::set_out(&plan, scale)?;
        for told in steps {
            walked.step(&plan, told)?;
            let what = match told {
                Told::Wait(ticks) => format!("wait {ticks}"),
                Told::Start(cell, k) => format!("start cell {cell} event {k}"),
                Told::Finish(k) => format!("finish event {k}"),
            };
            let now = walked.now();
            let counts = now.counts.map(|count| count.to_string()).join(" ");
            lines.push_str(&format!("{what}: cell {} counts {counts} elapsed {}\n", now.cell, now.elapsed));
        }
        trail = Some(walked);
    }
    lines.push_str(&trail_line(trail.as_ref()));
    Ok(())
}
