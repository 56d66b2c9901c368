#!/usr/bin/env bash
# Compares judge and walk with the independent judge of oracle/ on random plans, covers, trails and damaged files.
# Arguments: number of cases, seed. The programs have to be built (scripts/build.sh).
set -u
cd "$(dirname "$0")/.." || exit 1
cargo build --release --offline --quiet --manifest-path oracle/Cargo.toml || exit 1
exec oracle/target/release/compare "$PWD/target/bin/judge" "$PWD/target/bin/walk" "${1:-20000}" "${2:-1}"
