#!/bin/sh
# Proves and builds bench_settle, builds the driver and runs it. From anywhere in the repository:
#     sh bench/run.sh                                      the tables
#     sh bench/run.sh plain|verified FAMILY SEED TIMES     one book, for a profiler
set -eu
cd "$(dirname "$0")/.."
mkdir -p target/bench
(cd crates/bench_settle && rt lib) >target/bench/lib.log 2>&1 || { cat target/bench/lib.log; exit 1; }
rustc --edition 2021 -O -C overflow-checks=on bench/main.rs -o target/bench/settle-bench \
    -L crates/bench_settle/out -l static=bench_settle
target/bench/settle-bench "$@"
