//! The judge's report for the files of the current folder.

use oracle::folder;
use oracle::report::{judge_text, Files};

fn main() {
    let (model, cover, trail) = (folder::read("model.hd"), folder::read("cover.hd"), folder::read("trail.hd"));
    folder::print(&judge_text(&Files { model: model.as_deref(), cover: cover.as_deref(), trail: trail.as_deref() }));
}
