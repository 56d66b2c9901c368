#!/usr/bin/env bash
# Compares the proved closing and the proved calls of zones and order sets, through the static library, with the sets of oracle/ on random
# sequences of calls. Arguments: number of cases, seed. The library has to be built (scripts/build.sh).
set -u
cd "$(dirname "$0")/.." || exit 1
cargo build --release --offline --quiet --manifest-path bench/Cargo.toml || exit 1
exec bench/target/release/compare-sets "${1:-200000}" "${2:-1}"
