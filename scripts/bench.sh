#!/usr/bin/env bash
# Times whole tasks, calls of zones beside plain Rust, and, where libppl-dev is installed, gaps beside the Parma Polyhedra Library. What is
# measured stands in docs/bench.md. Argument: rounds of each whole task. The programs and the exports have to be built (scripts/build.sh).
set -u
cd "$(dirname "$0")/.." || exit 1
[ -x target/bin/judge ] || { echo "target/bin/judge is missing: run scripts/build.sh"; exit 1; }
cargo build --release --offline --quiet --manifest-path oracle/Cargo.toml || exit 1
cargo build --release --offline --quiet --manifest-path bench/Cargo.toml || exit 1

echo "Whole tasks"
oracle/target/release/bench target/bin/judge "${1:-15}" || exit 1

printf '\nCalls of zones, proved beside plain Rust\n'
bench/target/release/zones || exit 1

printf '\nThe same calls through the exports of bench_zone\n'
rustc --edition 2024 -C opt-level=3 -L native=target/staticlib bench/main.rs -o target/bench/zones || exit 1
target/bench/zones || exit 1

printf '\nGaps on zones, proved beside the Parma Polyhedra Library\n'
if echo '#include <ppl.hh>' | g++ -x c++ -fsyntax-only - 2>/dev/null; then
  g++ -std=c++17 -O3 bench/ppl.cpp target/staticlib/libkinds_export.a -lppl -lgmpxx -lgmp -o target/bench/ppl || exit 1
  target/bench/ppl || exit 1
else
  echo "left out: g++ or libppl-dev is not installed"
fi
