//! The judge's report by the proved judge's own steps in plain Rust.

use oracle::folder;
use oracle::plain::plain_text;
use oracle::report::Files;

fn main() {
    let (model, cover, trail) = (folder::read("model.hd"), folder::read("cover.hd"), folder::read("trail.hd"));
    folder::print(&plain_text(&Files { model: model.as_deref(), cover: cover.as_deref(), trail: trail.as_deref() }));
}
