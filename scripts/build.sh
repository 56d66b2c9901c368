#!/usr/bin/env bash
# Proves and builds the programs and the exports: target/bin/judge, target/bin/walk, target/staticlib/libkinds_export.a and libbench_zone.a.
set -u
cd "$(dirname "$0")/.." || exit 1
mkdir -p target/bin target/staticlib target/bench
for name in judge walk; do
  # rt run builds the program and runs it; what it prints in a folder with no plan is of no use here
  (cd "crates/$name" && rt run) >"target/bin/$name.log" 2>&1 || { cat "target/bin/$name.log"; exit 1; }
  cp "crates/$name/out/$name" "target/bin/$name" || exit 1
done
for name in kinds_export bench_zone; do
  (cd "crates/$name" && rt lib) >"target/staticlib/$name.log" 2>&1 || { cat "target/staticlib/$name.log"; exit 1; }
  cp "crates/$name/out/lib$name.a" target/staticlib/ || exit 1
done
