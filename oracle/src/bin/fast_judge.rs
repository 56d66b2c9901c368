//! The judge's report by the flat-array judge.

use oracle::fast::fast_text;
use oracle::folder;
use oracle::report::Files;

fn main() {
    let (model, cover, trail) = (folder::read("model.hd"), folder::read("cover.hd"), folder::read("trail.hd"));
    folder::print(&fast_text(&Files { model: model.as_deref(), cover: cover.as_deref(), trail: trail.as_deref() }));
}
