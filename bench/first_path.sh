#!/usr/bin/env bash
# Times the proved program on a contract of 64 functions of 16 statements each, and prints time and peak memory; where z3
# is installed, z3 on the same questions stands beside it. Build the program first (./prove or rt ci).
set -u
top=$(cd "$(dirname "${BASH_SOURCE[0]}")/.." && pwd) || exit 1
program=$top/crates/solchc/out/solchc
[ -x "$program" ] || { echo "first_path: build the program first: ./prove" >&2; exit 1; }
command -v python3 >/dev/null || { echo "first_path: python3 is missing, skipped"; exit 0; }
folder=$(mktemp -d) || exit 1
trap 'rm -rf "$folder"' EXIT

python3 - "$folder" <<'PY'
import sys

folder = sys.argv[1]
sizes = [96 - 8 * (i % 12) for i in range(48)]
most = [2 ** size - 1 for size in sizes]
lines = ["contract Bench {"]
lines += [f"  uint{size} x{i};" for i, size in enumerate(sizes)]
questions = []


def ask(rows, last):
    names = sorted({name for row in rows + [last] for name in row.split() if name.startswith("v")})
    text = ["(set-logic QF_LRA)"]
    text += [f"(declare-fun {name} () Real)" for name in names]
    text += [f"(assert {row})" for row in rows + [last]]
    questions.append("\n".join(text + ["(check-sat)", "(reset)"]))


for f in range(64):
    i = f % 48
    lines.append(f"  function f{f}() public {{")
    rows = []
    for j in range(48):
        rows += [f"(>= v{j} 0 )", f"(<= v{j} {most[j]} )"]
    now, fresh = i, 48
    limit = most[i] // 2
    for s in range(4):
        lines.append(f"    require(x{i} < {limit});")
        rows.append(f"(< v{now} {limit} )")
        lines.append(f"    x{i} = x{i} + {s + 1};")
        ask(rows, f"(>= (+ v{now} {s + 1}) {most[i] + 1} )")
        rows += [f"(= v{fresh} (+ v{now} {s + 1}) )", f"(>= v{fresh} 0 )", f"(<= v{fresh} {most[i]} )"]
        now, fresh = fresh, fresh + 1
        lines.append(f"    assert(x{i} <= {limit + s});")
        ask(rows, f"(> v{now} {limit + s} )")
        rows.append(f"(<= v{now} {limit + s} )")
        lines.append(f"    assert(x{i} >= {s + 1});")
        ask(rows, f"(< v{now} {s + 1} )")
        rows.append(f"(>= v{now} {s + 1} )")
    lines.append("  }")
lines.append("}")
open(folder + "/bench.sol", "w").write("\n".join(lines) + "\n")
open(folder + "/bench.smt2", "w").write("\n".join(questions) + "\n")
PY

measure() { # a name, and a command: its seconds and its peak memory in KiB
  local name=$1
  shift
  python3 - "$name" "$@" <<'PY'
import resource, subprocess, sys, time

start = time.time()
done = subprocess.run(sys.argv[2:], stdout=subprocess.PIPE)
seconds = time.time() - start
peak = resource.getrusage(resource.RUSAGE_CHILDREN).ru_maxrss
last = done.stdout.decode().splitlines()[-1:] or [""]
print(f"{sys.argv[1]}: status {done.returncode}, {seconds:.3f} s, {peak} KiB, {last[0]}")
PY
}

echo "$(nproc) processors, $(grep -m1 'model name' /proc/cpuinfo | cut -d: -f2 | sed 's/^ //')"
measure solchc "$program" check "$folder/bench.sol"
if command -v z3 >/dev/null; then
  measure z3 z3 "$folder/bench.smt2"
else
  echo "z3: not installed, skipped"
fi
