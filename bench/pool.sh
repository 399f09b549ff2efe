#!/usr/bin/env bash
# Times looks and publications under the pool's lock, by 1, 2 and 4 threads, beside std's Mutex round a Vec in the same run. The one
# word says how many calls each round makes, a million where there is none. Build the program first: cd crates/pool_bench && rt run
set -u
top=$(cd "$(dirname "${BASH_SOURCE[0]}")/.." && pwd) || exit 1
program=$top/crates/pool_bench/out/pool_bench
[ -x "$program" ] || { echo "pool: build the program first: cd crates/pool_bench && rt run" >&2; exit 1; }
"$program" "${1:-1000000}"
