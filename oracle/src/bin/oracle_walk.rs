//! The walk of the trail in the current folder.

use oracle::folder;
use oracle::report::{walk_text, Files};

fn main() {
    let (model, trail) = (folder::read("model.hd"), folder::read("trail.hd"));
    folder::print(&walk_text(&Files { model: model.as_deref(), cover: None, trail: trail.as_deref() }));
}
